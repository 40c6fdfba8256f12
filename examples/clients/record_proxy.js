#!/usr/bin/env node
// Passes messages between a client and a browser, and writes each as a line: record_proxy.js [PORT [URL]]
//
// The client connects to the port in place of the URL. A line is `> ` and a message of the client, or `< ` and one of the browser, as
// `bidi check --both` and tools/rows_of_log.py read them. One connection is recorded, and the proxy ends with it. Needs the package ws.
const [port = '9223', url = 'ws://127.0.0.1:9222/session'] = process.argv.slice(2)
const WebSocket = require('ws')

// A line feed in a message becomes a carriage return, which is the same to JSON.
function write(mark, message) {
  process.stdout.write(`${mark} ${message.toString().replaceAll('\n', '\r')}\n`)
}

// Sends the other side what one side sends, and ends the other when it ends.
function pass(from, to, mark) {
  from.on('message', (data, isBinary) => {
    if (!isBinary) write(mark, data)
    to.send(data, { binary: isBinary })
  })
  from.on('close', () => to.close())
  from.on('error', error => {
    console.error(`record_proxy.js: ${error.message}`)
    process.exitCode = 1
    to.close()
  })
}

const server = new WebSocket.Server({ host: '127.0.0.1', port: Number(port) })
server.on('listening', () => console.error(`recording ws://127.0.0.1:${port} to ${url}`))
server.once('connection', client => {
  server.close()
  client.pause()
  const browser = new WebSocket(url, { maxPayload: 0 })
  pass(client, browser, '>')
  pass(browser, client, '<')
  browser.on('open', () => client.resume())
})
