#!/usr/bin/env python3
"""Plays the records of random conversations, and compares the output with what the host sent.

    python3 tools/random_scripts.py PROGRAM [--count N] [--seed N]

Each conversation has some clients and some page lines, among them those by which a test answers, holds, sends and cuts. `bidi play
--scripted` must write for its record, byte for byte, what each connection and standard output received.
"""
import argparse
import json
import os
import pathlib
import random
import re
import socket
import struct
import subprocess
import sys
import tempfile

TAB = "00000000-0002-8000-8000-00000000000"
SESSION = "00000000-0001-8000-8000-00000000000"
METHODS = ["session.status", "session.new", "session.end", "session.subscribe", "browsingContext.getTree", "browsingContext.create",
           "browsingContext.navigate", "script.evaluate", "network.addIntercept", "foo.bar", "input.performActions"]
EVENTS = ["browsingContext", "log", "script", "browsingContext.load", "browsingContext.contextCreated", "log.entryAdded",
          "network.beforeRequestSent", "network", "foo.bar", "cdp.X:y"]
EMITTED = ["browsingContext.load", "browsingContext.contextCreated", "log.entryAdded", "network.beforeRequestSent", "foo.bar", "nope"]
PLAIN = ["at", "frame", "unframe", "log", "value"]
END = "the end of the conversation"


class Client:
    """One WebSocket connection."""

    def __init__(self, port, resource):
        self.socket = socket.create_connection(("127.0.0.1", port))
        self.socket.setsockopt(socket.IPPROTO_TCP, socket.TCP_NODELAY, 1)
        self.socket.settimeout(20)
        self.socket.sendall(f"GET {resource} HTTP/1.1\r\nHost: 127.0.0.1\r\nUpgrade: websocket\r\nConnection: Upgrade\r\n"
                            "Sec-WebSocket-Version: 13\r\nSec-WebSocket-Key: dGhlIHNhbXBsZSBub25jZQ==\r\n\r\n".encode())
        self.bytes = b""
        self.got = []
        self.is_over = False
        head = self.until(b"\r\n\r\n")
        self.is_open = head.startswith(b"HTTP/1.1 101")

    def more(self):
        try:
            data = self.socket.recv(65536)
        except ConnectionError:
            data = b""
        self.bytes += data
        return bool(data)

    def until(self, mark):
        while mark not in self.bytes:
            if not self.more():
                return self.bytes
        head, self.bytes = self.bytes.split(mark, 1)
        return head

    def send(self, text, opcode=1):
        data = text.encode() if isinstance(text, str) else text
        size = len(data)
        head = struct.pack("!BB", 0x80 | opcode, 0x80 | size) if size < 126 else struct.pack("!BBH", 0x80 | opcode, 0xFE, size)
        try:
            self.socket.sendall(head + b"\0\0\0\0" + data)
        except OSError:
            pass

    def take(self, size):
        while len(self.bytes) < size:
            if not self.more():
                return None
        data, self.bytes = self.bytes[:size], self.bytes[size:]
        return data

    def frame(self):
        """Reads a frame: its opcode and payload, or None at the end."""
        head = self.take(2)
        if head is None:
            return None
        size = head[1] & 127
        if size > 125:
            size = int.from_bytes(self.take(2 if size == 126 else 8), "big")
        return head[0] & 15, self.take(size)

    def read_to(self, mark):
        """Reads what comes up to a pong or to this text, or up to the end."""
        while not self.is_over:
            frame = self.frame()
            if frame is None:
                self.got.append("end")
                self.is_over = True
            elif frame[0] == 10 and mark is None:
                return
            elif frame[0] == 1:
                text = frame[1].decode()
                self.got.append("text " + text)
                if text == mark:
                    return
            elif frame[0] == 2:
                self.got.append("bytes " + frame[1].hex())
            elif frame[0] == 8:
                self.got.append(f"close {int.from_bytes(frame[1][:2], 'big')}")
                self.send(frame[1], 8)
                self.is_over = True


class Host:
    """A host that reads page lines from standard input."""

    def __init__(self, program, folder):
        self.record = pathlib.Path(folder, "record")
        words = [program, "host", "--port", "0", "--stdin", "--record", str(self.record)]
        self.process = subprocess.Popen(words, stdin=subprocess.PIPE, stdout=subprocess.PIPE, stderr=subprocess.PIPE)
        for line in self.process.stderr:
            found = re.search(rb"ws://127.0.0.1:(\d+)", line)
            if found:
                self.port = int(found[1])
                break
        self.held, self.idle = [], []
        self.resets = 0

    def say(self, line):
        """Says a page line, and returns its answer."""
        self.process.stdin.write(line.encode() + b"\n")
        self.process.stdin.flush()
        while True:
            said = self.process.stdout.readline().decode().rstrip("\n")
            if not said.startswith("held "):
                break
            self.held.append(said)
        if said.startswith("no effect"):
            self.idle.append("no effect" if line.split(" ")[0] in PLAIN else said)
        return said

    def reset(self):
        said = self.say("reset")
        if said != "ok":
            sys.exit(f"random_scripts.py: the host says {said!r}")
        self.held, self.idle = [], []
        self.resets += 1
        return pathlib.Path(f"{self.record}.{self.resets + 1}")


def value(r, deep=2):
    """A random JSON value."""
    kind = r.randrange(7 if deep else 5)
    if kind < 5:
        return [None, True, r.randrange(100), r.choice([1.5, -0.25, 1e21]), r.choice(["", "a", "1 + 1", "é\n", TAB + "1"])][kind]
    if kind == 5:
        return [value(r, deep - 1) for _ in range(r.randrange(3))]
    return {r.choice("abc"): value(r, deep - 1) for _ in range(r.randrange(3))}


def event(r):
    """A random event."""
    params = {"context": TAB + r.choice("129")} if r.random() < 0.6 else value(r, 1)
    found = {"method": r.choice(EMITTED), "params": params if isinstance(params, dict) else {"source": {"context": TAB + "1"}}}
    return found if r.random() < 0.95 else {"params": {}}


def command(r):
    """A random command of a client, as text."""
    method = r.choice(METHODS)
    params = {
        "session.new": {"capabilities": {}},
        "session.subscribe": {"events": r.sample(EVENTS, r.randrange(1, 4))},
        "browsingContext.create": {"type": "tab"},
        "browsingContext.navigate": {"context": TAB + r.choice("123"), "url": "http://a.test/" + r.choice("xyz")},
        "script.evaluate": {"expression": "1 + 1", "target": {"context": TAB + "1"}, "awaitPromise": False},
    }.get(method, {})
    if method == "session.subscribe" and r.random() < 0.4:
        method = "session.unsubscribe"
    if r.random() < 0.1:
        params = value(r)
    text = json.dumps({"id": r.randrange(1000), "method": method, "params": params}, ensure_ascii=r.random() < 0.5)
    return text if r.random() < 0.95 else r.choice(["", "{", "[]", '{"id":1.5,"method":"foo.bar"}', '{"method":"foo.bar"}', text.replace(" ", "\n")])


def answer(r):
    """A random answer of a row."""
    found = {"result": {"a": value(r)}} if r.random() < 0.7 else {"error": r.choice(["no such frame", "my own"])}
    if "error" in found and r.random() < 0.5:
        found["message"] = "as the test says"
    for name in ("before", "after"):
        if r.random() < 0.3:
            found[name] = [event(r) for _ in range(r.randrange(3))]
    if r.random() < 0.05:
        found["nope"] = 1
    return found


def row(r):
    """What a random row is for."""
    found = {"method": r.choice(METHODS)}
    if r.random() < 0.4:
        found["params"] = r.choice([{}, {"context": TAB + "1"}, {"url": {"$starts": "http://a.test/x"}}, {"events": [{"$contains": "o"}]}, value(r)])
    if r.random() < 0.4:
        found["times"] = r.choice([0, 1, 1, 2, 3])
    return found


def page_line(r, conns):
    """A random page line."""
    conn = r.randrange(1, conns + 2)
    lines = [
        lambda: "answer " + json.dumps({**row(r), **answer(r)}, ensure_ascii=False), lambda: "answer " + json.dumps({**row(r), **answer(r)}),
        lambda: "hold " + json.dumps(row(r)), lambda: f"release {r.randrange(1, 6)}",
        lambda: f"release {r.randrange(1, 6)} " + json.dumps(answer(r)), lambda: "unanswer " + r.choice(METHODS),
        lambda: "emit " + json.dumps(event(r)), lambda: "emit " + json.dumps(event(r)),
        lambda: f"on {r.choice(EVENTS)} " + json.dumps([event(r) for _ in range(r.randrange(3))]).replace(TAB + "1", "$context"),
        lambda: "names " + r.choice(["*", "network", "foo.bar cdp.X:y", "network.beforeRequestSent", "é", ""]),
        lambda: f"send {conn} " + r.choice(["", "no JSON", '{"id":7}', "{}" * 200]), lambda: f"bytes {conn} " + r.choice(["", "00ff", "abc", "zz", "DEADBEEF"]),
        lambda: f"cut {conn}", lambda: f"close {conn} " + r.choice(["1000", "1011", "4000", "999", "1005", "x"]),
        lambda: f"at {r.randrange(5000)}", lambda: f"frame {TAB}{r.choice('129')} http://a.test/f", lambda: f"unframe {TAB}{r.choice('129')}",
        lambda: f"log {TAB}{r.choice('129')} warn it is late", lambda: 'value {"text":"1 + 1","returns":{"type":"number","value":2}}',
        lambda: r.choice(["", "answer", "hold x", "release 0", "release x", "emit []", "unanswer", "on x", "cut", "nope 1"]),
    ]
    return r.choice(lines)()


def play(program, record):
    """What `play --scripted` writes for a record: what each connection gets, what is held, and what has no effect."""
    ran = subprocess.run([program, "play", "--scripted"], stdin=open(record, "rb"), stdout=subprocess.PIPE, stderr=subprocess.PIPE)
    if ran.returncode:
        sys.exit(f"random_scripts.py: play ends with status {ran.returncode}: {ran.stderr.decode()}")
    sent, held, idle = {}, [], []
    for line in ran.stdout.decode().split("\n")[:-1]:
        word, _, rest = line.partition(" ")
        conn, _, text = rest.partition(" ")
        if word == "held":
            held.append(line)
        elif line.startswith("no effect"):
            idle.append(line)
        elif word in ("<", "bytes", "close", "cut"):
            what = {"<": "text " + text, "bytes": "bytes " + text.lower(), "close": "close " + (text or "1000"), "cut": "end"}[word]
            sent.setdefault(int(conn), []).append(what)
    return sent, held, idle


def converse(host, program, r):
    """Has one conversation, and returns what does not agree."""
    record = host.reset()
    clients = {}
    for _ in range(r.randrange(5, 40)):
        if r.random() < 0.15 or not clients:
            clients[len(clients) + 1] = Client(host.port, r.choice(["/session", "/session", "/session", "/session/" + SESSION + "1", "/nope"]))
        elif r.random() < 0.55:
            clients[r.randrange(1, len(clients) + 1)].send(command(r))
            if r.random() < 0.5:
                host.say("at 1")
        else:
            host.say(page_line(r, len(clients)))
    for it in clients.values():
        it.send("", 9)
    for it in clients.values():
        if it.is_open:
            it.read_to(None)
    for conn, it in clients.items():
        if it.is_open:
            host.say(f"send {conn} {END}")
            it.read_to(END)
    sent, held, idle = play(program, record)
    for conn, it in clients.items():
        it.socket.close()
        wanted = sent.get(conn, [])
        if it.is_open and it.got != wanted and it.got != wanted + ["end"]:
            return f"connection {conn} got {it.got}, not {wanted}"
    if held != host.held:
        return f"held were {host.held}, not {held}"
    if idle != host.idle:
        return f"without effect were {host.idle}, not {idle}"
    return None


def main():
    parser = argparse.ArgumentParser(description="Plays the records of random conversations, and compares the output with what the host sent.")
    parser.add_argument("program")
    parser.add_argument("--count", type=int, default=1000)
    parser.add_argument("--seed", type=int, default=1)
    asked = parser.parse_args()
    with tempfile.TemporaryDirectory() as folder:
        host = Host(os.path.abspath(asked.program), folder)
        for n in range(asked.count):
            fault = converse(host, os.path.abspath(asked.program), random.Random(asked.seed * 1_000_000 + n))
            if fault:
                sys.exit(f"random_scripts.py: seed {asked.seed}, conversation {n}: {fault}")
        host.process.stdin.close()
        host.process.wait()
    print(f"{asked.count} conversations: each record plays to what was sent")


if __name__ == "__main__":
    main()
