#!/usr/bin/env node
// A canned fake, to be measured beside `bidi host` by host_speed.js: fake_host.js [PORT]
//
// It stands on the package ws. Each command is answered with what `session.status` gives, under its id, whatever it asks. Each text
// on `/page` sends one canned event to all other connections, and is answered by `ok`.
const { WebSocketServer } = require('ws')

const EVENT = JSON.stringify({
  method: 'log.entryAdded',
  params: {
    args: [{ type: 'string', value: 'the page is slow' }],
    level: 'warn',
    method: 'warn',
    source: { context: '00000000-0002-8000-8000-000000000001', realm: '00000000-0003-8000-8000-000000000001' },
    text: 'the page is slow',
    timestamp: 0,
    type: 'console',
  },
  type: 'event',
})

const clients = new Set()
const server = new WebSocketServer({ host: '127.0.0.1', port: Number(process.argv[2] ?? 9222) })

server.on('listening', () => console.error(`WebDriver BiDi listening on ws://127.0.0.1:${server.address().port}`))

server.on('connection', (socket, { url }) => {
  if (url === '/page') {
    socket.on('message', () => {
      for (const client of clients) client.send(EVENT)
      socket.send('ok')
    })
  } else {
    clients.add(socket)
    socket.on('close', () => clients.delete(socket))
    socket.on('message', text => {
      const { id } = JSON.parse(text)
      socket.send(`{"id":${id},"result":{"message":"ready","ready":true},"type":"success"}`)
    })
  }
})
