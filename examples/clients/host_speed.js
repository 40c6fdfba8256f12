#!/usr/bin/env node
// Times `bidi host` beside a canned fake, over loopback: host_speed.js PROGRAM [COUNT]
//
// For both it prints the microseconds on the clock that each of these takes, and behind them those that the server's process has
// taken of a processor; then the server's memory. Each is the middle of three runs, with a server of its own:
//
// - `session.status`, COUNT times (50,000), each asked behind the reply to the one before; all asked at once; and asked by 64
//   connections, on each behind the reply to its one before;
// - a line of the log by the connection of the page, COUNT / 25 times, until the page has its answer and each of 64 connections,
//   eight of each of eight sessions, its event;
// - the memory of a server that has just started, and has 64 connections that say nothing.
//
// The client sends frames that are ready, and of what comes it counts the frames alone, so that little of the time is its own.
const { spawn } = require('node:child_process')
const { once } = require('node:events')
const { readFileSync } = require('node:fs')
const net = require('node:net')
const { join } = require('node:path')
const { createInterface } = require('node:readline')
const { setTimeout } = require('node:timers/promises')

const [program, count = '50000'] = process.argv.slice(2)
const COUNT = Number(count)
const CLIENTS = 64
const TICK = 10_000 // microseconds, in which /proc counts
const TAB = '00000000-0002-8000-8000-000000000001'
const KEY = 'dGhlIHNhbXBsZSBub25jZQ=='

// The frames that are still to come, on all connections together, and what goes on behind them.
let missing = 0
let arrived = () => {}

function frames(number) {
  missing += number
  return new Promise(resolve => { arrived = resolve })
}

function arrive(number) {
  missing -= number
  if (missing === 0) arrived()
}

// A masked text frame, under a key of zeros.
function frame(text) {
  const bytes = Buffer.from(text)
  const size = bytes.length < 126 ? [0x80 | bytes.length] : [0x80 | 126, bytes.length >> 8, bytes.length & 255]
  return Buffer.concat([Buffer.from([0x81, ...size, 0, 0, 0, 0]), bytes])
}

// How long the frame of a server at this place is, or 0 where it is not whole yet.
function frameSize(bytes, at) {
  if (at + 4 > bytes.length) return 0
  const short = bytes[at + 1]
  const size = short < 126 ? 2 + short : 4 + bytes.readUInt16BE(at + 2)
  return at + size > bytes.length ? 0 : size
}

// A connection that counts the frames that come, and hands their number on.
class Connection {
  static async open(port, resource) {
    const socket = net.connect(port, '127.0.0.1')
    socket.setNoDelay(true)
    socket.write(`GET ${resource} HTTP/1.1\r\nHost: 127.0.0.1:${port}\r\nUpgrade: websocket\r\nConnection: Upgrade\r\n` +
      `Sec-WebSocket-Key: ${KEY}\r\nSec-WebSocket-Version: 13\r\n\r\n`)
    let head = ''
    while (!head.endsWith('\r\n\r\n')) head += (await once(socket, 'data'))[0]
    if (!head.startsWith('HTTP/1.1 101')) throw new Error(head)
    return new Connection(socket)
  }

  constructor(socket) {
    Object.assign(this, { socket, rest: Buffer.alloc(0), came: arrive })
    socket.on('data', piece => this.take(piece))
  }

  take(piece) {
    const bytes = this.rest.length > 0 ? Buffer.concat([this.rest, piece]) : piece
    let at = 0
    let number = 0
    for (let size = frameSize(bytes, at); size > 0; size = frameSize(bytes, at)) {
      at += size
      number += 1
    }
    this.rest = bytes.subarray(at)
    if (number > 0) this.came(number)
  }

  send(bytes) {
    this.socket.write(bytes)
  }

  // Sends a command whose reply comes alone.
  async ask(method, params) {
    const reply = frames(1)
    this.send(frame(JSON.stringify({ id: 1, method, params })))
    await reply
  }
}

const questions = Array.from({ length: COUNT }, (_, id) => frame(`{"id":${id},"method":"session.status","params":{}}`))
const logLine = frame(`log ${TAB} warn the page is slow`)

// Each of these is what is timed, with the connections of clients and that of the page.
async function oneByOne([client]) {
  for (const question of questions) {
    const reply = frames(1)
    client.send(question)
    await reply
  }
}

async function allAtOnce([client]) {
  const replies = frames(COUNT)
  client.send(Buffer.concat(questions))
  await replies
}

async function allClients(clients) {
  let next = 0
  const replies = frames(COUNT)
  for (const client of clients) {
    client.came = number => {
      if (next < COUNT) client.send(questions[next++])
      arrive(number)
    }
    client.send(questions[next++])
  }
  await replies
  for (const client of clients) client.came = arrive
}

async function logLines(clients, page) {
  for (let number = 0; number < COUNT / 25; number += 1) {
    const told = frames(CLIENTS + 1)
    page.send(logLine)
    await told
  }
}

// The microseconds of each, on the clock and of the server's processor.
async function timed(server, number, run) {
  const [start, spent] = [process.hrtime.bigint(), processorTime(server)]
  await run()
  const took = Number(process.hrtime.bigint() - start) / 1000
  return [took / number, (processorTime(server) - spent) / number]
}

function processorTime({ child }) {
  const fields = readFileSync(`/proc/${child.pid}/stat`, 'latin1').split(') ')[1].split(' ')
  return (Number(fields[11]) + Number(fields[12])) * TICK
}

function memory({ child }) {
  return Number(/VmRSS:\s+(\d+)/.exec(readFileSync(`/proc/${child.pid}/status`, 'latin1'))[1])
}

async function start([command, ...words]) {
  const child = spawn(command, words, { stdio: ['ignore', 'ignore', 'pipe'] })
  await once(child, 'spawn')
  const [line] = await once(createInterface(child.stderr), 'line')
  if (!line.includes('listening on')) throw new Error(line)
  return { child, port: Number(line.split(':').pop()) }
}

async function end({ child }) {
  const exit = once(child, 'exit')
  child.kill()
  await exit
}

// Connections that have no session.
async function connect({ port }) {
  const clients = []
  while (clients.length < CLIENTS) clients.push(await Connection.open(port, '/session'))
  return clients
}

// Connections of eight sessions by turns, each of which hears the log.
async function subscribe({ port }) {
  const clients = []
  for (let session = 1; session <= 8; session += 1) {
    const first = await Connection.open(port, '/session')
    await first.ask('session.new', { capabilities: {} })
    await first.ask('session.subscribe', { events: ['log.entryAdded'] })
    clients.push(first)
    while (clients.length < 8 * session) {
      clients.push(await Connection.open(port, `/session/00000000-0001-8000-8000-00000000000${session}`))
    }
  }
  return clients
}

// What is measured of one server, started anew for each part: the name of each figure with its values.
async function measure(command) {
  const figures = {}
  const idle = await start(command)
  figures['memory at the start, kB'] = [memory(idle)]
  const connections = await connect(idle)
  await setTimeout(200)
  figures['memory with 64 connections, kB'] = [memory(idle)]
  await oneByOne(connections) // not timed, so that all is warm
  figures['status, one by one, µs'] = await timed(idle, COUNT, () => oneByOne(connections))
  figures['status, all at once, µs'] = await timed(idle, COUNT, () => allAtOnce(connections))
  figures['status, 64 connections, µs'] = await timed(idle, COUNT, () => allClients(connections))
  await end(idle)
  const heard = await start(command)
  const clients = await subscribe(heard)
  const page = await Connection.open(heard.port, '/page')
  await logLines(clients, page) // nor this
  figures['a log line to 64 connections, µs'] = await timed(heard, COUNT / 25, () => logLines(clients, page))
  await end(heard)
  return figures
}

// Of each value the middle of the runs.
function middle(runs) {
  const of = values => values.sort((a, b) => a - b)[Math.floor(values.length / 2)]
  return Object.entries(runs[0]).map(([name, values]) => [name, values.map((_, place) => of(runs.map(run => run[name][place])))])
}

async function main() {
  const servers = { 'bidi host': [program, 'host', '--port', '0'], fake: [process.execPath, join(__dirname, 'fake_host.js'), '0'] }
  for (const [name, command] of Object.entries(servers)) {
    const runs = []
    while (runs.length < 3) runs.push(await measure(command))
    console.log(name)
    for (const [figure, values] of middle(runs)) {
      console.log(`  ${figure.padEnd(36)}${values.map(value => value.toFixed(figure.endsWith('kB') ? 0 : 2).padStart(10)).join('')}`)
    }
  }
}

main()
