// A browser in memory for the tests of a WebDriver BiDi client: `Host` runs one `bidi host`. For any test runner.
//
// The environment variable BIDI is the path of the program, `bidi` if it is not set.
// The program ends at the end of its standard input, so it never outlives the run.
// With BIDI_WEBSOCKET=builtin the sockets are those of Node itself.
const { spawn } = require('node:child_process')
const { constants: { signals } } = require('node:os')
const { createInterface } = require('node:readline')

// The WebSocket of Node itself, or that of the package ws.
const WebSocket = process.env.BIDI_WEBSOCKET === 'builtin' ? globalThis.WebSocket : require('ws')
const LISTENS = 'WebDriver BiDi listening on '
const LIMIT = 30_000 // milliseconds for the start of the program, and for each of its answers

// A running `bidi host`, at `url`.
class Host {
  // A host with further options, when it listens.
  static async start(...options) {
    const host = new Host(process.env.BIDI || 'bidi', ['host', '--port', '0', '--stdin', ...options])
    await host.answered()
    return host
  }

  constructor(program, words) {
    this.command = [program, ...words].join(' ')
    this.waiting = [] // what settles the promise of the start, and then of each line of a page, in order
    this.commands = [] // the commands that are held and that nobody has asked for
    this.asking = [] // what settles the promise of each `held`, in order
    this.errors = [] // the last lines of standard error
    this.sockets = new Set()
    const notRun = ({ code }) => fault(`cannot run \`${program}\` (${code}): the environment variable BIDI has to name the program \`bidi\``)
    try {
      this.child = spawn(program, words)
    } catch (error) {
      throw notRun(error)
    }
    this.failure = new Promise((_, reject) => {
      this.child.once('error', error => reject(notRun(error)))
      this.child.once('close', (status, signal) => reject(fault(this.ending(status, signal))))
    })
    this.failure.catch(error => {
      this.fault = error
      for (const { reject } of [...this.waiting.splice(0), ...this.asking.splice(0)]) reject(error)
    })
    this.child.stdin.on('error', () => {}) // The program has ended, so `failure` says more.
    createInterface(this.child.stdout).on('line', line => line.startsWith('held ') ? this.holds(line) : this.waiting.shift()?.resolve(line))
    createInterface(this.child.stderr).on('line', line => this.told(line)) // to its end, so that the pipe never fills
  }

  // Takes a line of standard error.
  told(line) {
    if (this.url === undefined && line.startsWith(LISTENS)) {
      this.url = line.slice(LISTENS.length).trim()
      this.waiting.shift()?.resolve()
    } else {
      this.errors = [...this.errors, line].slice(-20)
    }
  }

  // How the program ended, with the last lines of its standard error.
  ending(status, signal) {
    const how = this.silent ? 'does not answer' : signal ? `was ended by signal ${signals[signal]} (${signal})` : `ended with status ${status}`
    const lines = this.errors.map(line => `\n    ${line}`).join('')
    return `\`${this.command}\` ${how}. ${lines ? `The last lines of its standard error:${lines}` : 'Its standard error is empty.'}`
  }

  // The next answer of the program. A program that does not answer is killed, which rejects this.
  answered() {
    if (this.fault) return Promise.reject(this.fault)
    return this.killedIfLate(new Promise((resolve, reject) => this.waiting.push({ resolve, reject })))
  }

  // Kills the program if it does not settle a promise in time.
  killedIfLate(promise) {
    const timer = setTimeout(() => { this.silent = this.child.kill('SIGKILL') }, LIMIT)
    return promise.finally(() => clearTimeout(timer))
  }

  // Sends a line of a page and gives its answer, which begins with `ok`, `no effect` or `no line of a page`.
  async page(line) {
    if (line.includes('\n')) throw new Error(`not one line: ${JSON.stringify(line)}`)
    this.child.stdin.write(`${line}\n`)
    return this.answered()
  }

  // Sends a line of a page that ends in JSON and has to have an effect.
  async tell(words, value) {
    const answer = await this.page(`${words} ${JSON.stringify(value)}`)
    if (answer !== 'ok') throw new Error(answer)
  }

  // Answers a method in place of the browser from now on: by a result, or by `error` with a `message` in `row`.
  // `params`, `times`, `before` and `after` of `row` are those of the line `answer`.
  answer(method, result = {}, row = {}) {
    return this.tell('answer', 'error' in row ? { method, ...row } : { method, result, ...row })
  }

  // Holds the commands of a method from now on. `params` and `times` of `row` are those of the line `hold`. See `held`.
  hold(method, row = {}) {
    return this.tell('hold', { method, ...row })
  }

  // Takes the line of a command that is held.
  holds(line) {
    const [, number, conn, text] = /^held (\d+) (\d+) (.*)$/s.exec(line)
    const command = { number: Number(number), conn: Number(conn), text }
    const asked = this.asking.shift()
    if (asked) asked.resolve(command)
    else this.commands.push(command)
  }

  // The next command that is held: its number for `release`, its connection, and its text.
  held() {
    if (this.fault) return Promise.reject(this.fault)
    if (this.commands.length > 0) return Promise.resolve(this.commands.shift())
    const asked = {}
    const command = new Promise((resolve, reject) => Object.assign(asked, { resolve, reject }))
    this.asking.push(asked)
    const timer = setTimeout(() => {
      this.asking.splice(this.asking.indexOf(asked), 1)
      asked.reject(new Error(`no command was held in ${LIMIT / 1000} seconds`))
    }, LIMIT)
    const settled = command.finally(() => clearTimeout(timer))
    settled.catch(() => {}) // It may be that the test does not wait for it.
    return settled
  }

  // Makes the browser new, closes the connections of all clients, forgets the commands that are held, and ends each `held`.
  async reset() {
    const answer = await this.page('reset')
    if (answer !== 'ok') throw new Error(`reset: ${answer}`)
    this.commands = []
    for (const { reject } of this.asking.splice(0)) reject(new Error('the browser was made new'))
  }

  // A socket that is open. A test need not close it.
  connect(resource = '/session') {
    const socket = new WebSocket(this.url + resource)
    this.sockets.add(socket)
    const open = new Promise((resolve, reject) => {
      socket.onopen = () => resolve(socket)
      socket.onerror = ({ message }) => reject(new Error(message))
    })
    open.catch(() => {}) // It may be that the test does not wait for it.
    return open
  }

  // Closes the sockets of `connect`, without waiting for the host.
  cut() {
    for (const socket of this.sockets) socket.terminate ? socket.terminate() : socket.close()
    this.sockets.clear()
  }

  // Whether the program has ended, or ends within this many milliseconds.
  hasEnded(within) {
    return Promise.race([this.failure.catch(() => true), new Promise(resolve => setTimeout(resolve, within, false))])
  }

  // Ends the program and gives its status.
  async end() {
    this.child.stdin.end()
    await this.killedIfLate(this.failure).catch(() => {})
    return this.child.exitCode
  }
}

// An error without a stack, which would only show this file.
function fault(text) {
  return Object.assign(new Error(text), { stack: text })
}

module.exports = { Host }
