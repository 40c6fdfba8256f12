#!/usr/bin/env python3
"""Talks to `bidi play` as a child process: play_client.py PROGRAM

A line at a time goes in, and what it sends comes out before the next. Frames, the log, scripts and the clock, which no socket
has, are lines too. Behind each line a question of a second connection marks where its answers end.
"""
import json
import subprocess
import sys


class Play:
    """A play that goes on. `tell` gives the lines that come of a line."""

    def __init__(self, program):
        self.child = subprocess.Popen([program, "play"], stdin=subprocess.PIPE, stdout=subprocess.PIPE, text=True, bufsize=1)
        self.child.stdin.write("open 2 /session\n")
        assert self.child.stdout.readline() == "opened 2\n"

    def tell(self, line):
        self.child.stdin.write(line + '\n> 2 {"id":0,"method":"session.status","params":{}}\n')
        told = []
        while not (line := self.child.stdout.readline()).startswith('< 2 {"id":0,'):
            told.append(line.rstrip("\n"))
        return told

    def ask(self, method, **params):
        command = {"id": 1, "method": method, "params": params}
        messages = [json.loads(line[4:]) for line in self.tell("> 1 " + json.dumps(command)) if line.startswith("< 1 ")]
        return next(it for it in messages if it["type"] != "event"), [it for it in messages if it["type"] == "event"]

    def end(self):
        self.child.stdin.close()
        return self.child.wait()


play = Play(sys.argv[1])
play.tell("open 1 /session")
play.ask("session.new", capabilities={})
play.ask("session.subscribe", events=["log.entryAdded", "browsingContext.load"])
tree, _ = play.ask("browsingContext.getTree")
context = tree["result"]["contexts"][0]["context"]
play.tell('value {"text":"1 + 1","returns":{"type":"number","value":2}}')
answer, _ = play.ask("script.evaluate", expression="1 + 1", target={"context": context}, awaitPromise=False)
print("evaluate", answer["result"])
play.tell("at 1500")
for line in play.tell(f"log {context} warn the page is slow"):
    print(line)
_, events = play.ask("browsingContext.navigate", context=context, url="http://a.test", wait="complete")
print("events", *(it["method"] for it in events))
print("status", play.end())
