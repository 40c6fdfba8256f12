// A fixture for Node's test runner: `withHost` gives each test a new browser.
//
// One `bidi host` serves all tests of a file.
// With the environment variable BIDI_RECORD=DIR, the record of each test that fails is kept in DIR.
const path = require('node:path')
const nodeTest = require('node:test')
const { Host } = require('./host.cjs')
const { Records } = require('./records.cjs')

const LIMIT = 30_000 // milliseconds for a test
let host, records // of all tests of the file
const names = new Set()
let turn = Promise.resolve() // when the test before has ended

// The name for the records of a test: its file and its name, in letters, digits, `_` and `-`.
function recordName(test) {
  const file = path.relative(process.cwd(), process.argv[1])
  let name = `${file}-${test}`.replace(/\W+/g, '-').replace(/^-|-$/g, '').slice(0, 150)
  while (names.has(name)) name += '-2'
  names.add(name)
  return name
}

// A host with a new browser. Another host takes the place of one that has ended.
async function begin(record) {
  if (host === undefined || host.fault) {
    await end()
    records = process.env.BIDI_RECORD ? new Records(process.env.BIDI_RECORD) : undefined
    host = await Host.start(...records?.options ?? [])
  }
  await host.reset()
  records?.begin(record)
  return host
}

// Ends the host and gives its status.
async function end() {
  const status = await host?.end()
  records?.end()
  host = records = undefined
  return status
}

// Runs a test with a new browser, for at most so many milliseconds.
async function runTest(run, t, timeout) {
  const record = recordName(t.fullName ?? t.name)
  const host = await begin(record)
  let timer
  const stopped = new Promise((_, reject) => {
    timer = setTimeout(() => reject(new Error(`the test took more than ${timeout} milliseconds`)), timeout)
    t.signal.addEventListener('abort', () => reject(new Error('the test was stopped')))
  })
  stopped.catch(() => {}) // Node stops the signal of each test, also of one that has ended.
  try {
    await Promise.race([run(host, t), host.failure, stopped])
    host.cut()
    await host.reset()
  } catch (error) {
    for (const file of records?.keep(record) ?? []) t.diagnostic(`record: ${file}; look at it: python3 tools/look.py ${file} > look.html`)
    host.cut()
    if (await host.hasEnded(100)) throw error === host.fault ? error : Object.assign(host.fault, { cause: error })
    for (const line of host.errors) t.diagnostic(`standard error: ${line}`)
    await host.reset()
    throw error
  } finally {
    clearTimeout(timer)
  }
}

// What Node's `test` takes for a test with a new browser: `test('name', withHost(async host => { .. }))`.
// `run` gets the host and the context of Node's test. One test runs at a time, since all share the host.
function withHost(run, { timeout = LIMIT } = {}) {
  return t => {
    const result = turn.then(() => runTest(run, t, timeout))
    turn = result.catch(() => {})
    return result
  }
}

nodeTest.after(async () => {
  const last = host
  const known = last?.fault // A test has failed by it.
  if (await end() !== 0 && last && !known) throw last.fault
})

module.exports = { withHost }
