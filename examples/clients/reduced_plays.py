#!/usr/bin/env python3
"""Reduces random plays, and compares what a session is sent: reduced_plays.py PROGRAM [COUNT [SEED]]

Each play has two to eight sessions on some connections, which ask, subscribe, change the browser and are refused. For one of the
sessions it is checked that `bidi reduce` keeps lines of the play in their order; that what it keeps is kept again; and that the
lines that `bidi play` writes on the connections of that session are the same for the play and for what is kept of it.
"""
import json
import random
import subprocess
import sys

PROGRAM = sys.argv[1]
COUNT = int(sys.argv[2]) if len(sys.argv) > 2 else 1000
SEED = int(sys.argv[3]) if len(sys.argv) > 3 else 1


def identifier(kind, number, session=0):
    return f"{session:08x}-{kind:04x}-8000-8000-{number:012x}"


def context(chance):
    return identifier(2, chance.randint(1, 5))


def user(chance):
    return chance.choice(["default", identifier(8, chance.randint(1, 3))])


def command(chance, session):
    """A command that may succeed, and may be refused."""
    target = {"context": context(chance)} if chance.random() < 0.8 else {"realm": identifier(3, chance.randint(1, 9))}
    names = ["log", "browsingContext", "script", "session", "browser", "log.entryAdded", "browsingContext.load", "script.realmCreated"]
    events = chance.sample(names, chance.randint(1, 2)) if chance.random() < 0.95 else ["log.nothing"]
    scope = {} if chance.random() < 0.5 else {"contexts": [context(chance) for _ in range(chance.randint(1, 2))]}
    scope = scope if chance.random() < 0.7 else {"userContexts": [user(chance) for _ in range(chance.randint(1, 2))]}
    within = {} if chance.random() < 0.5 else {"userContext": user(chance)}
    ownership = {} if chance.random() < 0.6 else {"resultOwnership": "root"}
    script = chance.choice(["one", "text", "thrown", "given", "none"])
    given = chance.choice([{"type": "null"}, {"handle": identifier(6, chance.randint(1, 6))}, {"type": "array", "value": [{"type": "number", "value": 1}]}])
    return chance.choice([
        ("session.status", {}),
        ("session.subscribe", {"events": events, **scope}),
        ("session.subscribe", {"events": events, **scope}),
        ("session.unsubscribe", {"events": events}),
        ("session.unsubscribe", {"subscriptions": [identifier(5, chance.randint(1, 6), session)]}),
        ("session.new", {"capabilities": {}}),
        ("browsingContext.activate", {"context": context(chance)}),
        ("browsingContext.getTree", {} if chance.random() < 0.5 else {"root": context(chance)}),
        ("browsingContext.create", {"type": chance.choice(["tab", "window"]), **within}),
        ("browsingContext.close", {"context": context(chance)}),
        ("browsingContext.navigate", {"context": context(chance), "url": chance.choice(["http://a.test", "about:blank", "/x"]),
                                      "wait": chance.choice(["none", "interactive", "complete"])}),
        ("browsingContext.reload", {"context": context(chance)}),
        ("browsingContext.traverseHistory", {"context": context(chance), "delta": chance.randint(-2, 1)}),
        ("script.evaluate", {"expression": script, "awaitPromise": False, "target": target, **ownership}),
        ("script.callFunction", {"functionDeclaration": script, "awaitPromise": False, "target": target, "arguments": [given], **ownership}),
        ("script.disown", {"handles": [identifier(6, chance.randint(1, 6))], "target": target}),
        ("script.getRealms", {} if chance.random() < 0.5 else {"context": context(chance)}),
        ("browser.createUserContext", {}),
        ("browser.getUserContexts", {}),
        ("browser.removeUserContext", {"userContext": user(chance)}),
    ])


def text(chance, session, number):
    bad = chance.choice(["{", "", "{}", '{"id":7,"method":"session.fly"}', '{"id":8,"method":"script.disown","params":5}'])
    method, params = command(chance, session)
    good = json.dumps({"id": number, "method": method, "params": params}, separators=(",", ":"))
    return bad if chance.random() < 0.08 else good + chance.choice(["", "", "", " ", "\r"])


def random_play(chance):
    sessions = chance.randint(2, 8)
    lines = ['value {"text":"one","returns":{"type":"number","value":1}}', 'value {"text":"text","returns":{"type":"array","value":[]}}',
             'value {"text":"thrown","throws":{"type":"error"}}', 'value {"text":"given","argument":0}']
    for conn in range(1, sessions + 1):
        lines += [f"open {conn} /session", f'> {conn} {{"id":0,"method":"session.new","params":{{"capabilities":{{}}}}}}']
    for number in range(chance.randint(20, 120)):
        conn = chance.randint(1, sessions + 3)
        session = chance.randint(1, sessions)
        if chance.random() < 0.75:
            lines.append(f"> {conn} {text(chance, conn, number)}")
        elif chance.random() < 0.02:
            lines.append(f'> {conn} {{"id":{number},"method":"session.end","params":{{}}}}')
        else:
            lines.append(chance.choice([
                f"at {number}", f"binary {conn}", f"drop {conn}", f"open {conn} /session", f"open {conn} /session/{identifier(1, session)}",
                f"frame {context(chance)} http://b.test", f"unframe {context(chance)}", f"log {context(chance)} info entry {number}",
                f"log {context(chance)} warn entry {number}", 'value {"text":"none","returns":{"type":"null"}}', "value {}",
            ]))
    return lines, chance.randint(1, sessions)


def run(words, lines):
    ran = subprocess.run([PROGRAM, *words], input="".join(line + "\n" for line in lines).encode(), stdout=subprocess.PIPE, check=True)
    return ran.stdout.decode().split("\n")[:-1]


class Speaks:
    """Which connections speak for a session, told by what was asked and what was written."""

    def __init__(self, session):
        self.id = identifier(1, session)
        self.connections = set()

    def sent(self, play):
        """What `bidi play` writes on them, before or behind the step that changes which they are."""
        told, all_told = [], step_by_step(play)
        for line, wrote in zip(play, all_told):
            before = set(self.connections)
            self.note(line, wrote)
            own = before | self.connections
            told += [it for it in wrote if it.split(" ")[0] in ("<", "close", "opened") and int(it.split(" ")[1]) in own]
        return told

    def note(self, line, wrote):
        for it in wrote:
            word, conn, *rest = it.split(" ", 2)
            if word == "opened" and line.endswith("/session/" + self.id):
                self.connections.add(int(conn))
            if word == "close":
                self.connections.discard(int(conn))
            if word == "<" and f'"sessionId":"{self.id}"' in rest[0]:
                self.connections.add(int(conn))
        if line.startswith("drop "):
            self.connections.discard(int(line[5:]))


def step_by_step(play):
    """What each step writes: a question of one more connection stands behind each, and its answer marks the end."""
    lines = ["open 9000 /session"]
    for line in play:
        lines += [line, '> 9000 {"id":9000,"method":"session.status","params":{}}']
    groups, group = [], []
    for wrote in run(["play"], lines)[1:]:
        if wrote.startswith('< 9000 {"id":9000,'):
            groups.append(group)
            group = []
        else:
            group.append(wrote)
    assert len(groups) == len(play) and not group
    return groups


def is_part(kept, play):
    rest = iter(play)
    return all(any(line == other for other in rest) for line in kept)


struck = shown = 0
for number in range(COUNT):
    play, session = random_play(random.Random(SEED * 1000003 + number))
    words = ["reduce", "--session", str(session)]
    kept = run(words, play)
    seen = Speaks(session).sent(play)
    wrong = "no part of the play" if not is_part(kept, play) else "reduced once more" if run(words, kept) != kept else \
        "the session is sent other lines" if Speaks(session).sent(kept) != seen else None
    if wrong:
        sys.exit(f"play {number} of seed {SEED}, session {session}: {wrong}\n" + "\n".join(play))
    struck += len(play) - len(kept)
    shown += len(seen)
print(f"{COUNT} plays, {struck} lines struck, {shown} lines sent to the sessions, none otherwise")
