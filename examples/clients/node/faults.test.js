// Tests of a client over faults and commands that the browser in memory does not have: BIDI=path/to/bidi node --test
const assert = require('node:assert/strict')
const { test } = require('node:test')
const { withHost } = require('./with_host.cjs')

const TAB = '00000000-0002-8000-8000-000000000001' // the tab that stands at the start

// A socket with a session of its own, which is subscribed to these events. `next` gives the next message.
async function driving(host, ...events) {
  const socket = await host.connect()
  const came = []
  const waiting = []
  socket.onmessage = ({ data }) => (waiting.shift() ?? (each => came.push(each)))(data)
  const next = () => came.length > 0 ? Promise.resolve(came.shift()) : new Promise(resolve => waiting.push(resolve))
  const send = (id, method, params = {}) => socket.send(JSON.stringify({ id, method, params }))
  const message = async () => JSON.parse(await next())
  send(0, 'session.new', { capabilities: {} })
  await message()
  if (events.length > 0) {
    send(0, 'session.subscribe', { events })
    while ((await message()).type === 'event');
  }
  return { socket, next, send, message }
}

test('a reply is slow', withHost(async host => {
  const client = await driving(host)
  await host.hold('browsingContext.navigate')
  client.send(1, 'browsingContext.navigate', { context: TAB, url: 'http://a.test/' })
  const { number, conn, text } = await host.held()
  assert.deepEqual([number, conn, JSON.parse(text).id], [1, 1, 1])
  client.send(2, 'session.status')
  assert.equal((await client.message()).id, 2)
  assert.equal(await host.page(`release ${number}`), 'ok')
  const { id, result } = await client.message()
  assert.deepEqual([id, result.url], [1, 'http://a.test/'])
}))

test('a command of the profile has an error, and one of another module a result', withHost(async host => {
  const client = await driving(host)
  await host.answer('browsingContext.create', {}, { error: 'unknown error', message: 'out of windows', times: 1 })
  await host.answer('network.addIntercept', { intercept: 'one' }, { params: { phases: ['beforeRequestSent'] } })
  client.send(1, 'browsingContext.create', { type: 'tab' })
  assert.deepEqual(await client.message(), { type: 'error', id: 1, error: 'unknown error', message: 'out of windows' })
  client.send(2, 'network.addIntercept', { phases: ['beforeRequestSent'] })
  assert.deepEqual(await client.message(), { type: 'success', id: 2, result: { intercept: 'one' } })
  client.send(3, 'network.addIntercept', { phases: [] })
  assert.equal((await client.message()).error, 'unknown command')
}))

test('a connection is cut', withHost(async host => {
  const { socket } = await driving(host)
  const closed = new Promise(resolve => { socket.onclose = resolve })
  socket.onerror = () => {}
  assert.equal(await host.page('cut 1'), 'ok')
  assert.equal((await closed).code, 1006)
}))

test('a connection is closed with a code', withHost(async host => {
  const { socket } = await driving(host)
  const closed = new Promise(resolve => { socket.onclose = resolve })
  assert.equal(await host.page('close 1 4001'), 'ok')
  assert.equal((await closed).code, 4001)
}))

for (const text of ['', 'no JSON', '{"id":77,"result":{},"type":"success"}']) {
  test(`a stray message comes: ${JSON.stringify(text)}`, withHost(async host => {
    const client = await driving(host)
    assert.equal(await host.page(`send 1 ${text}`), 'ok')
    assert.equal(await client.next(), text)
  }))
}

test('a binary message comes', withHost(async host => {
  const client = await driving(host)
  client.socket.binaryType = 'arraybuffer'
  assert.equal(await host.page('bytes 1 00ff'), 'ok')
  assert.deepEqual([...new Uint8Array(await client.next())], [0, 255])
}))

for (const [what, frame] of [['a reserved bit', 'c100'], ['a mask', '818000000000'], ['no beginning', '8000']]) {
  test(`a frame is broken: ${what}`, withHost(async host => {
    const { socket } = await driving(host)
    const closed = new Promise(resolve => { socket.onclose = resolve })
    socket.onerror = () => {}
    assert.equal(await host.page(`raw 1 ${frame}`), 'ok')
    assert.notEqual((await closed).code, 1000)
  }))
}

test('a message comes in parts, with a ping between', withHost(async host => {
  const client = await driving(host)
  assert.equal(await host.page('raw 1 01017b'), 'ok')
  assert.equal(await host.page('raw 1 890080017d'), 'ok')
  assert.equal(await client.next(), '{}')
}))

test('the server does not read', withHost(async host => {
  const client = await driving(host)
  assert.equal(await host.page('stall 1'), 'ok')
  client.send(1, 'session.status')
  assert.equal(await host.page('send 1 {"id":0}'), 'ok')
  assert.equal((await client.message()).id, 0)
  assert.equal(await host.page('resume 1'), 'ok')
  assert.equal((await client.message()).id, 1)
}))

test('a handshake is refused', withHost(async host => {
  assert.equal(await host.page('refuse 1 503'), 'ok')
  await assert.rejects(host.connect())
  const client = await driving(host)
  client.send(1, 'session.status')
  assert.equal((await client.message()).id, 1)
}))

test('a message is cut off', withHost(async host => {
  const { socket, send } = await driving(host)
  const closed = new Promise(resolve => { socket.onclose = resolve })
  socket.onerror = () => {}
  assert.equal(await host.page('cut 1 10'), 'ok')
  send(1, 'session.status')
  assert.equal((await closed).code, 1006)
}))

test('an unknown event comes', withHost(async host => {
  const client = await driving(host)
  assert.equal(await host.page('names weather'), 'ok')
  client.send(1, 'session.subscribe', { events: ['weather'] })
  assert.equal((await client.message()).id, 1)
  assert.equal(await host.page('emit {"method":"weather.changed","params":{"sky":0.5}}'), 'ok')
  assert.deepEqual(await client.message(), { method: 'weather.changed', params: { sky: 0.5 }, type: 'event' })
}))

test('a navigation has its network event', withHost(async host => {
  assert.equal(await host.page('names network'), 'ok')
  const sent = { method: 'network.beforeRequestSent', params: { context: '$context', navigation: '$navigation', request: { url: '$url' } } }
  assert.equal(await host.page(`on browsingContext.navigationStarted ${JSON.stringify([sent])}`), 'ok')
  const client = await driving(host, 'browsingContext.navigationStarted', 'network.beforeRequestSent')
  client.send(1, 'browsingContext.navigate', { context: TAB, url: 'http://a.test/', wait: 'complete' })
  const started = await client.message()
  const { params } = await client.message()
  assert.deepEqual(params, { context: TAB, navigation: started.params.navigation, request: { url: 'http://a.test/' } })
  assert.equal((await client.message()).id, 1)
}))
