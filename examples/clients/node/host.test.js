// Tests of a client over `bidi host`: BIDI=path/to/bidi node --test
//
// `Client` stands where the client that is to be tested would stand.
const assert = require('node:assert/strict')
const http = require('node:http')
const { test } = require('node:test')
const { withHost } = require('./with_host.cjs')

const TAB = '00000000-0002-8000-8000-000000000001' // the tab that stands at the start
const SESSION = '00000000-0001-8000-8000-000000000001' // the first session

// One connection. `told` has what came, in order: the names of events, and `success` or `error`.
class Client {
  constructor(socket) {
    Object.assign(this, { socket, id: 0, asked: new Map(), events: [], waiting: [], told: [] })
    socket.onmessage = ({ data }) => this.take(JSON.parse(data))
    this.closed = new Promise(resolve => { socket.onclose = ({ code, reason }) => resolve([code, reason]) })
  }

  // A client on a connection without a session, or on one more of a session.
  static async connected(host, resource) {
    return new Client(await host.connect(resource))
  }

  // A client with a session of its own, which is subscribed to these events and has heard what was told at once.
  static async driving(host, ...events) {
    const client = await Client.connected(host)
    await client.ask('session.new', { capabilities: {} })
    if (events.length > 0) await client.ask('session.subscribe', { events })
    await client.heard()
    return client
  }

  take(message) {
    this.told.push(message.method ?? message.type)
    if (message.type === 'event') {
      this.events.push(message.params)
      this.waiting.shift()?.()
    } else {
      this.asked.get(message.id)(message)
      this.asked.delete(message.id)
    }
  }

  // The whole answer to a command.
  answer(method, params = {}) {
    this.id += 1
    this.socket.send(JSON.stringify({ id: this.id, method, params }))
    return new Promise(resolve => this.asked.set(this.id, resolve))
  }

  // The result of a command that succeeds.
  async ask(method, params) {
    const answer = await this.answer(method, params)
    assert.equal(answer.type, 'success', answer.error)
    return answer.result
  }

  // The params of the next event.
  async event() {
    while (this.events.length === 0) await new Promise(resolve => this.waiting.push(resolve))
    return this.events.shift()
  }

  // What came since the last time: the answer to a question stands behind it.
  async heard() {
    await this.ask('session.status')
    this.events.length = 0
    return this.told.splice(0).slice(0, -1)
  }
}

// Whether an answer of a page begins with these words. A reason may follow.
function tells(answer, words) {
  return answer === words || answer.startsWith(`${words}: `)
}

test('a session begins and ends', withHost(async host => {
  const client = await Client.connected(host)
  assert.deepEqual(await client.ask('session.status'), { ready: true, message: 'ready' })
  assert.equal((await client.ask('session.new', { capabilities: {} })).sessionId, SESSION)
  assert.deepEqual(await client.ask('session.end'), {})
  assert.deepEqual(await client.closed, [1000, ''])
}))

test('only subscribed events are told', withHost(async host => {
  const client = await Client.driving(host)
  await client.ask('browsingContext.create', { type: 'tab' })
  assert.deepEqual(await client.heard(), ['success'])
  await client.ask('session.subscribe', { events: ['browsingContext.contextDestroyed'] })
  const { context } = await client.ask('browsingContext.create', { type: 'tab' })
  await client.ask('browsingContext.close', { context })
  assert.equal((await client.event()).context, context)
  await client.ask('session.unsubscribe', { events: ['browsingContext.contextDestroyed'] })
  await client.heard()
  await client.ask('browsingContext.close', { context: TAB })
  assert.deepEqual(await client.heard(), ['success'])
}))

test('frames come and go', withHost(async host => {
  const client = await Client.driving(host, 'browsingContext.contextCreated', 'browsingContext.contextDestroyed')
  assert.equal(await host.page(`frame ${TAB} http://a.test/side`), 'ok')
  const { context, parent, url } = await client.event()
  assert.deepEqual([parent, url], [TAB, 'http://a.test/side'])
  const { contexts: [{ children }] } = await client.ask('browsingContext.getTree', { root: TAB })
  assert.deepEqual(children.map(child => child.context), [context])
  assert.equal(await host.page(`unframe ${context}`), 'ok')
  assert.equal((await client.event()).context, context)
  assert.ok(tells(await host.page(`unframe ${TAB}`), 'no effect'))
}))

for (const [wait, place] of [['none', 1], ['interactive', 2], ['complete', 3]]) {
  test(`a navigation that waits for ${wait} is answered behind ${place} of its events`, withHost(async host => {
    const events = ['browsingContext.navigationStarted', 'browsingContext.domContentLoaded', 'browsingContext.load']
    const client = await Client.driving(host, ...events)
    const there = await client.ask('browsingContext.navigate', { context: TAB, url: 'http://a.test', wait })
    assert.equal(there.url, 'http://a.test/')
    assert.deepEqual(await client.heard(), events.toSpliced(place, 0, 'success'))
  }))
}

for (const [row, result] of [
  ['{"text":"run()","returns":{"type":"number","value":2}}', { type: 'number', value: 2 }],
  ['{"text":"run()","returns":{"type":"array","value":[{"type":"null"}]}}', { type: 'array', value: [{ type: 'null' }] }],
  ['{"text":"run()","argument":0}', { type: 'undefined' }],
]) {
  test(`a script gives what its row says: ${row}`, withHost(async host => {
    const client = await Client.driving(host)
    assert.equal(await host.page(`value ${row}`), 'ok')
    const answer = await client.ask('script.evaluate', { expression: 'run()', target: { context: TAB }, awaitPromise: false })
    assert.deepEqual([answer.type, answer.result], ['success', result])
  }))
}

test('a function gives its argument', withHost(async host => {
  const client = await Client.driving(host)
  await host.page('value {"text":"x => x","argument":0}')
  const given = { type: 'string', value: 'same' }
  const call = { functionDeclaration: 'x => x', arguments: [given], target: { context: TAB }, awaitPromise: false }
  assert.deepEqual((await client.ask('script.callFunction', call)).result, given)
}))

test('a script that throws is no error', withHost(async host => {
  const client = await Client.driving(host)
  await host.page('value {"text":"pay()","throws":{"type":"error"}}')
  const answer = await client.ask('script.evaluate', { expression: 'pay()', target: { context: TAB }, awaitPromise: true })
  assert.equal(answer.type, 'exception')
  assert.deepEqual(answer.exceptionDetails.exception, { type: 'error' })
}))

test('a log entry has its level and moment', withHost(async host => {
  const client = await Client.driving(host, 'log.entryAdded')
  await host.page('at 1500')
  assert.equal(await host.page(`log ${TAB} warn the page is slow`), 'ok')
  const { level, text, timestamp, source } = await client.event()
  assert.deepEqual([level, text, timestamp, source.context], ['warn', 'the page is slow', 1500, TAB])
}))

for (const [method, params, code] of [
  ['session.fly', {}, 'unknown command'],
  ['session.new', { capabilities: {} }, 'session not created'],
  ['session.subscribe', { events: ['log.nothing'] }, 'invalid argument'],
  ['browsingContext.navigate', { context: 'none', url: 'http://a.test' }, 'no such frame'],
  ['browsingContext.navigate', { context: TAB, url: '/relative' }, 'invalid argument'],
  ['browsingContext.traverseHistory', { context: TAB, delta: -1 }, 'no such history entry'],
  ['browser.removeUserContext', { userContext: 'default' }, 'invalid argument'],
  ['script.evaluate', { expression: '1', target: { context: TAB }, awaitPromise: false }, 'unsupported operation'],
]) {
  test(`${method} is refused: ${code}`, withHost(async host => {
    const client = await Client.driving(host)
    assert.equal((await client.answer(method, params)).error, code)
  }))
}

test('a text that is no JSON is answered', withHost(async host => {
  const client = await Client.connected(host)
  const answer = new Promise(resolve => client.asked.set(null, resolve))
  client.socket.send('{"id":1')
  assert.equal((await answer).error, 'invalid argument')
}))

test('two sessions share a browser and no subscription', withHost(async host => {
  const one = await Client.driving(host, 'browsingContext.contextCreated')
  const other = await Client.driving(host, 'log.entryAdded')
  const { context } = await other.ask('browsingContext.create', { type: 'tab' })
  assert.equal((await one.event()).context, context)
  await host.page(`log ${context} info to one of two`)
  assert.equal((await other.event()).text, 'to one of two')
  assert.deepEqual(await one.heard(), ['browsingContext.contextCreated'])
  await one.ask('session.end')
  assert.deepEqual(await one.closed, [1000, ''])
  await host.page(`log ${context} info still there`)
  assert.equal((await other.event()).text, 'still there')
}))

test('a late subscriber is told what there is', withHost(async host => {
  const client = await Client.driving(host)
  const events = ['browsingContext.contextCreated', 'log.entryAdded']
  await host.page(`frame ${TAB} http://a.test/side`)
  await host.page(`log ${TAB} info before the subscription`)
  await client.ask('session.subscribe', { events })
  const { url } = await client.event()
  assert.deepEqual([url, (await client.event()).url], ['about:blank', 'http://a.test/side'])
  assert.equal((await client.event()).text, 'before the subscription')
  await client.heard()
  await client.ask('session.subscribe', { events })
  assert.deepEqual(await client.heard(), ['success'])
}))

test('the session of a client that left lives on', withHost(async host => {
  const client = await Client.driving(host, 'log.entryAdded')
  client.socket.close()
  await client.closed
  const again = await Client.connected(host, `/session/${SESSION}`)
  await host.page(`log ${TAB} error heard again`)
  assert.equal((await again.event()).text, 'heard again')
}))

test('two connections speak for one session', withHost(async host => {
  const one = await Client.driving(host)
  const two = await Client.connected(host, `/session/${SESSION}`)
  await two.ask('session.subscribe', { events: ['log.entryAdded'] })
  await host.page(`log ${TAB} info to both`)
  assert.deepEqual([(await one.event()).text, (await two.event()).text], ['to both', 'to both'])
  assert.deepEqual(await one.ask('browsingContext.getTree'), await two.ask('browsingContext.getTree'))
  await two.ask('session.end')
  assert.deepEqual(await Promise.all([one.closed, two.closed]), [[1000, ''], [1000, '']])
}))

test('a reset makes a new browser', withHost(async host => {
  const client = await Client.driving(host)
  await host.page(`frame ${TAB} http://a.test/side`)
  await client.ask('browsingContext.navigate', { context: TAB, url: 'http://a.test' })
  assert.equal(await host.page('reset'), 'ok')
  assert.deepEqual(await client.closed, [1001, ''])
  const { contexts } = await (await Client.driving(host)).ask('browsingContext.getTree')
  assert.deepEqual(contexts.map(({ context, url, children }) => [context, url, children]), [[TAB, 'about:blank', []]])
}))

test('a page may be a connection', withHost(async host => {
  const client = await Client.driving(host, 'log.entryAdded')
  const page = await host.connect('/page')
  for (const [line, words] of [[`log ${TAB} info by a socket`, 'ok'], ['unframe none', 'no effect'], ['fly', 'no line of a page']]) {
    const answer = new Promise(resolve => { page.onmessage = ({ data }) => resolve(data) })
    page.send(line)
    assert.ok(tells(await answer, words))
  }
  assert.equal((await client.event()).text, 'by a socket')
}))

test('a line of no page is told', withHost(async host => {
  assert.ok(tells(await host.page('fly'), 'no line of a page'))
  assert.equal(await host.page(`log ${TAB} info to nobody`), 'ok')
}))

for (const resource of ['/', '/session/', '/session/none', '/devtools']) {
  test(`there is no resource ${resource}`, withHost(async host => {
    await assert.rejects(Client.connected(host, resource))
    const headers = { connection: 'upgrade', upgrade: 'websocket', 'sec-websocket-version': 13, 'sec-websocket-key': 'dGhlIHNhbXBsZSBub25jZQ==' }
    assert.deepEqual((await got(host, resource, headers)).status, 404)
  }))
}

test('the status is told over HTTP', withHost(async host => {
  const { status, text } = await got(host, '/status')
  assert.deepEqual([status, text.trim()], [200, '{"value":{"ready":true,"message":"ready"}}'])
}))

test('a request that asks for no upgrade is told so', withHost(async host => {
  assert.equal((await got(host, '/session')).status, 426)
}))

// The status and the text of an answer by HTTP.
function got(host, resource, headers = {}) {
  return new Promise((resolve, reject) => {
    const request = http.get(host.url.replace('ws:', 'http:') + resource, { headers }, async answer => {
      let text = ''
      for await (const piece of answer) text += piece
      resolve({ status: answer.statusCode, text })
    })
    request.on('error', reject)
  })
}
