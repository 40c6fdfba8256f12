#!/usr/bin/env node
// Drives `bidi serve` by the package ws, or by the WebSocket that Node has: ws_client.js [PORT] [builtin]
//
// With one more word, `host`, it drives `bidi host`: a connection of the page sets what the script gives, and logs an entry.
const [port = '9222', ...words] = process.argv.slice(2)
const WebSocket = words.includes('builtin') ? globalThis.WebSocket : require('ws')
const byHost = words.includes('host')
const socket = new WebSocket(`ws://127.0.0.1:${port}/session`)
const waiting = new Map()
const events = []
let id = 0

function send(method, params = {}) {
  id += 1
  socket.send(JSON.stringify({ id, method, params }))
  return new Promise(resolve => waiting.set(id, resolve))
}

// Has the page do these, on a connection of its own.
async function play(...lines) {
  const page = new WebSocket(`ws://127.0.0.1:${port}/page`)
  await new Promise(resolve => { page.onopen = resolve })
  for (const line of lines) {
    page.send(line)
    const { data } = await new Promise(resolve => { page.onmessage = resolve })
    console.log(line.split(' ')[0], data)
  }
  page.close()
}

socket.onmessage = ({ data }) => {
  const message = JSON.parse(data)
  if (message.type === 'event') {
    events.push(message.method)
  } else {
    waiting.get(message.id)(message.result ?? message.error)
    waiting.delete(message.id)
  }
}

socket.onopen = async () => {
  const session = await send('session.new', { capabilities: {} })
  console.log('session', session.sessionId)
  await send('session.subscribe', { events: byHost ? ['browsingContext', 'log'] : ['browsingContext'] })
  const { context } = await send('browsingContext.create', { type: 'tab' })
  const there = await send('browsingContext.navigate', { context, url: 'http://a.test', wait: 'complete' })
  console.log('at', there.url)
  if (byHost) {
    await play('value {"text":"1 + 1","returns":{"type":"number","value":2}}', `log ${context} warn the page is slow`)
  }
  console.log('evaluate', await send('script.evaluate', { expression: '1 + 1', target: { context }, awaitPromise: false }))
  await send('session.end')
  console.log('events', ...events)
}

socket.onclose = () => console.log('closed')
