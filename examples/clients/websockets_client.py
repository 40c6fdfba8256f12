#!/usr/bin/env python3
"""Drives `bidi serve` by python3-websockets: websockets_client.py [PORT]

With one more word, `host`, it drives `bidi host`: a connection of the page sets what the script gives, and logs an entry.
"""
import asyncio
import json
import sys

import websockets


class Client:
    """Sends commands one by one, and keeps the events that come between."""

    def __init__(self, socket):
        self.socket, self.id, self.events = socket, 0, []

    async def send(self, method, **params):
        self.id += 1
        await self.socket.send(json.dumps({"id": self.id, "method": method, "params": params}))
        while True:
            message = json.loads(await self.socket.recv())
            if message["type"] == "event":
                self.events.append(message["method"])
            else:
                assert message["id"] == self.id, message
                return message.get("result") or message.get("error") or {}


async def play(port, *lines):
    """Has the page do these, on a connection of its own."""
    async with websockets.connect(f"ws://127.0.0.1:{port}/page") as page:
        for line in lines:
            await page.send(line)
            print(line.split()[0], await page.recv())


async def main(port, by_host):
    async with websockets.connect(f"ws://127.0.0.1:{port}/session") as socket:
        client = Client(socket)
        session = await client.send("session.new", capabilities={})
        print("session", session["sessionId"])
        await client.send("session.subscribe", events=["browsingContext", "log"] if by_host else ["browsingContext"])
        tab = await client.send("browsingContext.create", type="tab")
        there = await client.send("browsingContext.navigate", context=tab["context"], url="http://a.test", wait="complete")
        print("at", there["url"])
        if by_host:
            row = 'value {"text":"1 + 1","returns":{"type":"number","value":2}}'
            await play(port, row, f"log {tab['context']} warn the page is slow")
        target = {"context": tab["context"]}
        print("evaluate", await client.send("script.evaluate", expression="1 + 1", target=target, awaitPromise=False))
        await client.send("session.end")
        print("events", *client.events)
        try:
            await socket.recv()
        except websockets.ConnectionClosed:
            print("closed")


asyncio.run(main(sys.argv[1] if len(sys.argv) > 1 else "9222", "host" in sys.argv[2:]))
