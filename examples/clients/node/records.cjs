// The records that are kept of tests that fail.
const fs = require('node:fs')
const path = require('node:path')

// Whether there is a process with this id.
function isRunning(pid) {
  try {
    return process.kill(pid, 0)
  } catch (error) {
    return error.code !== 'ESRCH'
  }
}

// The records of one host, which begins a new file at each `reset`. They are in a folder `host-PID-..` inside `folder`.
class Records {
  constructor(folder) {
    fs.mkdirSync(folder, { recursive: true })
    this.folder = folder
    this.removeLeft()
    this.written = fs.mkdtempSync(path.join(folder, `host-${process.pid}-`))
    this.options = ['--record', path.join(this.written, 'play')]
  }

  // Removes the folders of processes that are gone: a process that is killed, as by Ctrl-C, leaves its own.
  removeLeft() {
    for (const name of fs.readdirSync(this.folder)) {
      const [, pid] = /^host-([1-9]\d{0,8})-/.exec(name) ?? []
      if (pid && !isRunning(Number(pid))) fs.rmSync(path.join(this.folder, name), { recursive: true, force: true })
    }
  }

  // The files that the host wrote and that were not kept, in order: play, play.2, play.3 and so on.
  files() {
    const order = (a, b) => a.length - b.length || (a < b ? -1 : 1)
    return fs.readdirSync(this.written).sort(order).map(file => path.join(this.written, file))
  }

  // The files that are kept for a test: NAME.play, NAME.2.play and so on, which may or may not be there.
  * kept(name) {
    for (let number = 1; ; number += 1) yield path.join(this.folder, number === 1 ? `${name}.play` : `${name}.${number}.play`)
  }

  // Removes the files of earlier tests, and what an earlier run kept of this test.
  begin(name) {
    for (const file of this.files().slice(0, -1)) fs.unlinkSync(file)
    for (const file of this.kept(name)) {
      if (!fs.existsSync(file)) break
      fs.unlinkSync(file)
    }
  }

  // Moves the files of this test to those that are kept, and gives these.
  keep(name) {
    const kept = this.kept(name)
    return this.files().filter(file => fs.statSync(file).size > 0).map(file => {
      const { value } = kept.next()
      fs.renameSync(file, value)
      return value
    })
  }

  // Removes the files that were not kept.
  end() {
    fs.rmSync(this.written, { recursive: true })
  }
}

module.exports = { Records }
