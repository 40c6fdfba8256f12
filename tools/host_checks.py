#!/usr/bin/env python3
"""Checks of a host over sockets that look at the process: host_checks.py PROGRAM [--readers N] [--bound MIB]

- Clients that do not read make the host hold no more than `--max-buffered`, whatever sends to them: a navigation of another client, a
  line of standard input, a line of a page. What one step sends comes on top while the step lasts. A client beside them loses nothing.
  tools/held.c, which `cc` compiles, counts the memory in the blocks that the host holds.
- A host that is started with a standard descriptor closed opens no file of its own in that place.
"""
import argparse
import mmap
import os
import pathlib
import shutil
import struct
import subprocess
import sys
import tempfile
import time

from random_scripts import Client, Host, SESSION, TAB

ROOT = pathlib.Path(__file__).resolve().parent.parent
MIB = 1 << 20
# How long a text of one step is, and how many steps there are.
LENGTH, STEPS = 500_000, 30
# What a connection may keep for later, and what the host may hold beside that and beside the browser.
KEPT, SPARE = 1 << 17, MIB
NEW = '{"id":0,"method":"session.new","params":{"capabilities":{}}}'
SUBSCRIBE = '{"id":1,"method":"session.subscribe","params":{"events":["browsingContext","log"]}}'
STATUS = '{"id":5,"method":"session.status","params":{}}'
READY = '{"id":5,"result":{"message":"ready","ready":true},"type":"success"}'


class Bounded(Host):
    """A host with a bound, whose blocks of memory are counted."""

    def __init__(self, program, bound, folder):
        words = [program, "host", "--port", "0", "--stdin", "--max-buffered", str(bound)]
        counts = pathlib.Path(folder, "held")
        counts.write_bytes(bytes(16))
        with open(counts, "r+b") as file:
            self.counts = mmap.mmap(file.fileno(), 16)
        environment = {**os.environ, "LD_PRELOAD": str(pathlib.Path(folder, "held.so")), "HELD": str(counts)}
        self.process = subprocess.Popen(words, env=environment, stdin=subprocess.PIPE, stdout=subprocess.PIPE, stderr=subprocess.PIPE)
        self.held, self.idle = [], []
        for line in self.process.stderr:
            if b"ws://127.0.0.1:" in line:
                self.port = int(line.strip().rsplit(b":", 1)[1])
                return

    def memory(self):
        """The bytes in the blocks that the host holds, and the most that ever were."""
        return struct.unpack("qq", self.counts)

    def resident(self):
        """The most bytes of the process that were in memory."""
        found = pathlib.Path(f"/proc/{self.process.pid}/status").read_text()
        return int(found.split("VmHWM:")[1].split()[0]) << 10

    def end(self):
        self.process.stdin.close()
        self.process.wait()


def compiled(folder):
    """Compiles tools/held.c in this folder."""
    compiler = shutil.which("cc") or shutil.which("gcc")
    if not compiler:
        sys.exit("host checks: there is no C compiler, neither `cc` nor `gcc`, for tools/held.c")
    subprocess.run([compiler, "-O1", "-shared", "-fPIC", "-o", f"{folder}/held.so", ROOT / "tools/held.c"], check=True)


def reply(client):
    """The next text that a client reads which is no event."""
    while True:
        opcode, text = client.frame()
        if opcode == 1 and b'"type":"event"' not in text:
            return text.decode()


def navigate(host, client, page):
    url = "http://a.test/" + "x" * LENGTH
    client.send_long('{"id":7,"method":"browsingContext.navigate","params":{"context":"' + TAB + '1","url":"' + url + '"}}')
    return '"type":"success"' in reply(client)


def type_line(host, client, page):
    return host.say(f"log {TAB}1 info " + "x" * LENGTH) == "ok"


def say_line(host, client, page):
    page.send_long(f"log {TAB}1 info " + "x" * LENGTH)
    return reply(page) == "ok"


class Long(Client):
    """A client that can send long messages."""

    def send_long(self, text):
        data = text.encode()
        self.socket.sendall(b"\x81\xff" + len(data).to_bytes(8, "big") + b"\0\0\0\0" + data)


def bounded(program, folder, readers, bound, step):
    """What is wrong with a host whose clients do not read, if anything is."""
    host = Bounded(program, bound, folder)
    first = Long(host.port, "/session")
    first.send(NEW)
    reply(first)
    first.send(SUBSCRIBE)
    reply(first)
    slow = [Client(host.port, f"/session/{SESSION}1") for _ in range(readers - 1)]
    good, page = Long(host.port, f"/session/{SESSION}1"), Long(host.port, "/page")
    began, resident = host.memory()[0], host.resident()
    for n in range(STEPS):
        if not step(host, good, page):
            return f"step {n} is not answered"
        good.send(STATUS)
        if reply(good) != READY:
            return f"another client is not served after step {n}"
    time.sleep(0.5)
    now, most = (it - began for it in host.memory())
    resident = host.resident() - resident
    host.end()
    for it in [first, *slow, good, page]:
        it.socket.close()
    # A browser keeps the URLs of its history, and its last log entries.
    spare = SPARE + (readers + 3) * KEPT + STEPS * LENGTH
    sent = (3 if step is navigate else 1) * (readers + 1) * LENGTH
    # In a step a buffer grows by a text, or by an eighth of what waits in it. A text is also read, parsed and written.
    beside = 8 * LENGTH + bound * MIB // 8
    figures = f"{now / MIB:.0f} MiB are held, {most / MIB:.0f} MiB were at most, and {resident / MIB:.0f} MiB were in memory"
    print(f"{step.__name__}, {readers} readers, a bound of {bound} MiB, {sent / MIB:.0f} MiB a step: {figures}")
    return None if now <= bound * MIB + spare and most <= bound * MIB + sent + beside + spare else figures


def closed(program, folder, descriptor):
    """What is wrong with a host that is started with this descriptor closed, if anything is: its record has the lines that it was given."""
    record = pathlib.Path(folder, f"record{descriptor}")
    words = [program, "host", "--port", "0", "--stdin", "--lenient", "--record", str(record)]
    pipes = {name: subprocess.PIPE for number, name in enumerate(("stdin", "stdout", "stderr")) if number != descriptor}
    process = subprocess.Popen(words, preexec_fn=lambda: os.close(descriptor), **pipes)
    given = ["names *", "at 5", "log nowhere info x"]
    try:
        process.communicate("".join(it + "\n" for it in [*given[1:], "end"]).encode() if descriptor else None, timeout=30)
    except subprocess.TimeoutExpired:
        process.kill()
        return f"with descriptor {descriptor} closed it does not end"
    found = record.read_text().splitlines()
    # Without standard input the host ends at once, and without standard output after the first answer.
    wanted = {0: given[:1], 1: given[:2], 2: given}[descriptor]
    return None if found == wanted else f"with descriptor {descriptor} closed the record has {found!r}"


def main():
    parser = argparse.ArgumentParser(description="Checks of a host over sockets that look at the process.")
    parser.add_argument("program")
    parser.add_argument("--readers", type=int, default=8)
    parser.add_argument("--bound", type=int, default=4, help="in MiB")
    asked = parser.parse_args()
    program = os.path.abspath(asked.program)
    with tempfile.TemporaryDirectory() as folder:
        compiled(folder)
        told = [bounded(program, folder, asked.readers, asked.bound, step) for step in (navigate, type_line, say_line)]
        told += [closed(program, folder, descriptor) for descriptor in (0, 1, 2)]
    told = [it for it in told if it]
    print(*told, f"host checks: {len(told)} wrong", sep="\n")
    return 1 if told else 0


if __name__ == "__main__":
    sys.exit(main())
