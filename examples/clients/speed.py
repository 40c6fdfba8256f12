#!/usr/bin/env python3
"""Times `bidi serve` over loopback: speed.py [PORT] [COUNT]

Sends `session.status` so many times, first one by one, each after the reply to the one before, and then all at once. Prints
the time of each, and of the server's share nothing: both ends run on one machine, and this one is Python.
"""
import socket
import struct
import sys
import threading
import time

PORT = int(sys.argv[1]) if len(sys.argv) > 1 else 9222
COUNT = int(sys.argv[2]) if len(sys.argv) > 2 else 50_000
HEAD = (
    "GET /session HTTP/1.1\r\nHost: 127.0.0.1\r\nUpgrade: websocket\r\nConnection: Upgrade\r\n"
    "Sec-WebSocket-Key: dGhlIHNhbXBsZSBub25jZQ==\r\nSec-WebSocket-Version: 13\r\n\r\n"
)


def frame(text):
    """A masked text frame, under a key of zeros."""
    size = struct.pack(">BH", 0x80 | 126, len(text)) if len(text) > 125 else bytes([0x80 | len(text)])
    return b"\x81" + size + b"\0\0\0\0" + text


def read_whole(reader):
    """The text of one frame of the server."""
    size = reader.read(2)[1]
    if size == 126:
        size = struct.unpack(">H", reader.read(2))[0]
    return reader.read(size)


commands = [frame(b'{"id":%d,"method":"session.status","params":{}}' % n) for n in range(COUNT)]
client = socket.create_connection(("127.0.0.1", PORT))
client.setsockopt(socket.IPPROTO_TCP, socket.TCP_NODELAY, 1)
reader = client.makefile("rb", 1 << 16)
client.sendall(HEAD.encode())
while reader.readline() != b"\r\n":
    pass

start = time.perf_counter()
for command in commands:
    client.sendall(command)
    read_whole(reader)
took = time.perf_counter() - start
print(f"one by one: {took / COUNT * 1e3:.3f} ms a command")

start = time.perf_counter()
sender = threading.Thread(target=client.sendall, args=(b"".join(commands),))
sender.start()
for n in range(COUNT):
    text = read_whole(reader)
assert text.startswith(b'{"id":%d,' % (COUNT - 1)), text
took = time.perf_counter() - start
sender.join()
print(f"all at once: {COUNT / took:,.0f} commands a second")
