// Tests of the fixture itself: of what it does for a test that forgets to close, that fails, or whose host ends.
const assert = require('node:assert/strict')
const { execFile, spawn, spawnSync } = require('node:child_process')
const { once } = require('node:events')
const fs = require('node:fs')
const os = require('node:os')
const path = require('node:path')
const { after, test } = require('node:test')
const { Host } = require('./host.cjs')

const STATUS = '{"id":1,"method":"session.status","params":{}}'

const INNER = `
const assert = require('node:assert/strict')
const { test } = require('node:test')
const { withHost } = require(process.env.FIXTURE)
const left = []

async function asked(host) {
  const socket = await host.connect()
  socket.send('{"id":1,"method":"session.status","params":{}}')
  await new Promise(resolve => { socket.onmessage = resolve })
  return socket
}

test('leaves a client open', withHost(async host => left.push(await asked(host))))
test('finds it closed', withHost(async () => {
  if (left[0].readyState !== left[0].CLOSED) await new Promise(resolve => { left[0].onclose = resolve })
}, { timeout: 5000 }))
test('fails', withHost(async host => {
  await asked(host)
  assert.equal('this', 'that')
}))
test('takes too long', withHost(async host => {
  await asked(host)
  await new Promise(() => {})
}, { timeout: 700 }))
test('is stopped by Node', { timeout: 700 }, withHost(async host => {
  await asked(host)
  await new Promise(() => {})
}))
test('waits for a host that dies', withHost(async host => {
  await asked(host)
  host.child.kill('SIGKILL')
  await new Promise(() => {})
}))
test('does not see that the host dies', withHost(async host => {
  await asked(host)
  host.child.kill('SIGKILL')
}))
test('has a new host', withHost(async host => { await asked(host) }))
`

// A test that can only be killed.
const ENDLESS = `
const { test } = require('node:test')
const { withHost } = require(process.env.FIXTURE)

test('waits', withHost(async () => {
  console.log('waiting')
  await new Promise(() => {})
}))
`

// A program that is no test.
const PLAIN = `
Host.start().then(async host => {
  console.log(await host.page('at 1500'))
  console.log(await host.end())
})
`

// A test that is an ES module.
const MODULE = `
import { test } from 'node:test'
import { Host } from './host.mjs'
import { withHost } from './with_host.mjs'

test('has a host', withHost(async host => {
  if (!(host instanceof Host) || await host.page('at 1500') !== 'ok') throw new Error('no host')
}))
`

// The program, also from another folder.
const PROGRAM = process.env.BIDI?.includes('/') ? path.resolve(process.env.BIDI) : process.env.BIDI || 'bidi'

// A run of the tests of INNER beside the tests below. A record of an earlier run is there for a test that passes now.
const folder = fs.mkdtempSync(path.join(os.tmpdir(), 'bidi-'))
const records = path.join(folder, 'records')
const ran = runInner()

// The output of the run, and the seconds that it took.
async function runInner() {
  fs.mkdirSync(records)
  fs.writeFileSync(path.join(records, 'inner-js-has-a-new-host.play'), 'at 1500\n')
  const start = performance.now()
  const { output } = await runNode('inner.js', INNER, { BIDI_RECORD: records })
  return { output, seconds: (performance.now() - start) / 1000 }
}

// Runs a source as a file in a folder, and gives its status and its output.
function runNode(file, source, variables = {}, cwd = folder) {
  fs.writeFileSync(path.join(cwd, file), source)
  return new Promise(resolve => {
    const options = { cwd, env: environment(variables) }
    execFile(process.execPath, words(file), options, (error, output) => resolve({ status: error?.code ?? 0, output }))
  })
}

// The words that run a file with the options of this run.
function words(file) {
  return [...process.execArgv.filter(word => word !== '--test'), file]
}

// The environment of a run of its own.
function environment(variables) {
  const { NODE_TEST_CONTEXT, ...others } = process.env
  const files = { FIXTURE: path.join(__dirname, 'with_host.cjs'), HOST: path.join(__dirname, 'host.cjs') }
  return { ...others, ...files, BIDI: PROGRAM, ...variables }
}

after(() => fs.rmSync(folder, { recursive: true }))

test('a test need not close its clients, and ends with its host', async () => {
  const { output, seconds } = await ran
  const outcomes = output.match(/^(not ok|ok) \d+ - .*$/gm).map(line => line.replace(/ \d+ -/, ':'))
  assert.deepEqual(outcomes, [
    'ok: leaves a client open', 'ok: finds it closed', 'not ok: fails', 'not ok: takes too long', 'not ok: is stopped by Node',
    'not ok: waits for a host that dies', 'not ok: does not see that the host dies', 'ok: has a new host'])
  assert.equal(output.match(/error: (\|-\s+)?.*was ended by signal 9 \(SIGKILL\)\. /g).length, 2)
  assert.ok(seconds < 25) // A test that waits for ever would take thirty.
})

test('only the record of a test that fails is kept', async () => {
  const { output } = await ran
  const files = ['does-not-see-that-the-host-dies', 'fails', 'is-stopped-by-Node', 'takes-too-long', 'waits-for-a-host-that-dies']
    .map(name => `inner-js-${name}.play`)
  assert.deepEqual(fs.readdirSync(records).sort(), files)
  for (const file of files.map(file => path.join(records, file))) {
    assert.ok(output.includes(`# record: ${file}; look at it: python3 tools/look.py ${file} > look.html\n`), file)
  }
})

test('a record is a play', async () => {
  await ran
  const input = fs.readFileSync(path.join(records, 'inner-js-fails.play'))
  const lines = spawnSync(PROGRAM, ['play'], { input, encoding: 'utf8' }).stdout.split('\n')
  assert.deepEqual(lines.slice(0, 2), ['opened 1', '< 1 {"id":1,"result":{"message":"ready","ready":true},"type":"success"}'])
})

test('the next run removes the folder of a run that was killed, and no other', async () => {
  const kept = path.join(folder, 'kept')
  const others = [`host-${process.pid}-a`, 'host-a']
  for (const name of others) fs.mkdirSync(path.join(kept, name), { recursive: true })
  fs.writeFileSync(path.join(folder, 'endless.js'), ENDLESS)
  const run = spawn(process.execPath, words('endless.js'), { cwd: folder, env: environment({ BIDI_RECORD: kept }) })
  for await (const text of run.stdout) if (`${text}`.includes('waiting')) break
  run.kill('SIGINT')
  if (run.exitCode === null && run.signalCode === null) await once(run, 'exit')
  assert.equal(fs.readdirSync(kept).length, 3)
  const { output } = await runNode('next.js', ENDLESS.replace('await new Promise(() => {})', ''), { BIDI_RECORD: kept })
  assert.match(output, /^ok 1 - waits$/m)
  assert.deepEqual(fs.readdirSync(kept).sort(), others.sort())
})

test('a host of another runner writes nothing', async () => {
  assert.deepEqual(await runNode('plain.js', `const { Host } = require(process.env.HOST)\n${PLAIN}`), { status: 0, output: 'ok\n0\n' })
})

test('a package of ES modules can have the host and the fixture', async () => {
  const modules = path.join(folder, 'modules')
  fs.mkdirSync(modules)
  for (const file of ['host.cjs', 'host.mjs', 'records.cjs', 'with_host.cjs', 'with_host.mjs']) {
    fs.copyFileSync(path.join(__dirname, file), path.join(modules, file))
  }
  fs.writeFileSync(path.join(modules, 'package.json'), '{"type":"module"}')
  const plain = await runNode('plain.js', `import { Host } from './host.mjs'\n${PLAIN}`, {}, modules)
  assert.deepEqual(plain, { status: 0, output: 'ok\n0\n' })
  const { output } = await runNode('inner.js', MODULE, {}, modules)
  assert.match(output, /^ok 1 - has a host$/m)
})

test('the end of a host rejects all that waits, and is told with its standard error', async () => {
  const other = await Host.start('--lenient')
  const socket = await other.connect()
  socket.send('{"id":1,"method":"session.new","params":{"capabilities":{"alwaysMatch":{"webSocketUrl":true}}}}')
  await once(socket, 'message')
  other.child.kill('SIGSTOP')
  const waiting = [other.page('at 1500'), other.page('at 1600')]
  other.child.kill('SIGKILL')
  const told = /signal 9 \(SIGKILL\)\.[^]*bidi: left out .*webSocketUrl/
  await Promise.all(waiting.map(answer => assert.rejects(answer, told)))
  await assert.rejects(other.page('at 1700'), told)
})

test('a host that does not start is told with its status', async () => {
  await assert.rejects(Host.start('--page', path.join(folder, 'none')), /ended with status 3\.[^]*bidi: cannot read .*none: no such file/)
})

test('a program that is not found is told in one line', async () => {
  await assert.rejects(withProgram('no-such-program', () => Host.start()), /^Error: cannot run `no-such-program` .*BIDI.*$/)
})

test('further lines of standard error are read', async () => {
  const script = path.join(folder, 'bidi')
  fs.writeFileSync(script, `#!/bin/sh\nyes 'a line before' | head -n 10000 >&2\nexec ${PROGRAM} "$@"\n`, { mode: 0o755 })
  const other = await withProgram(script, () => Host.start())
  assert.equal(await other.page('at 1500'), 'ok')
  other.child.kill('SIGKILL')
  await assert.rejects(other.page('at 1600'), /SIGKILL[^]*a line before/)
})

test('a host that does not read is killed after 30 seconds', async t => {
  const other = await Host.start()
  other.child.kill('SIGSTOP')
  t.mock.timers.enable({ apis: ['setTimeout'] })
  const answer = other.page('x'.repeat(200_000))
  t.mock.timers.tick(30_000)
  await assert.rejects(answer, /does not answer\./)
})

test('a held command that never comes is no fault of the host', async t => {
  const other = await Host.start()
  t.mock.timers.enable({ apis: ['setTimeout'] })
  const held = other.held()
  t.mock.timers.tick(30_000)
  await assert.rejects(held, /^Error: no command was held in 30 seconds$/)
  t.mock.timers.reset()
  await takesHeld(other)
})

test('a reset ends what waits for a held command', async () => {
  const other = await Host.start()
  const held = other.held()
  await other.reset()
  await assert.rejects(held, /^Error: the browser was made new$/)
  await takesHeld(other)
})

// Holds a command, takes it, and ends the host.
async function takesHeld(host) {
  await host.hold('session.status')
  const socket = await host.connect()
  socket.send(STATUS)
  assert.deepEqual(await host.held(), { number: 1, conn: 1, text: STATUS })
  host.cut()
  assert.equal(await host.end(), 0)
}

// Starts something while BIDI names another program.
function withProgram(program, start) {
  const { BIDI } = process.env
  process.env.BIDI = program
  const started = start()
  if (BIDI === undefined) delete process.env.BIDI
  else process.env.BIDI = BIDI
  return started
}
