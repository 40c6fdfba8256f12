#!/usr/bin/env python3
"""Holds random scripted plays against a second reading of docs/FORMATS.md.

    python3 tools/scripted_plays.py PROGRAM [--count N] [--seed N]

The second reading is the class Test below: it keeps the rows, the held commands, the events that follow others and the names of a
test, and gives the rest to `bidi play`, which knows nothing of them. What it writes for a play must be, byte for byte, what `bidi
play --scripted` writes.
"""
import argparse
import json
import os
import pathlib
import random
import re
import subprocess
import sys

TAB = "00000000-0002-8000-8000-00000000000"
SESSION = "00000000-0001-8000-8000-00000000000"
SUBSCRIPTION = "-0005-8000-8000-"
EVENTS = ["browsingContext.contextCreated", "browsingContext.load", "log.entryAdded", "script.realmCreated"]
MODULES = ["browsingContext", "log", "script", "session", "browser"]
FOREIGN = ["network", "network.beforeRequestSent", "foo.bar", "log.other", "browsingContext.other", "cdp.X:y"]
FORMATS = pathlib.Path(__file__).resolve().parent.parent / "docs/FORMATS.md"
# The events of the profile, from the table of the document.
PROFILE = re.findall(r"(?m)^\| ([A-Za-z]+\.[A-Za-z]+) \|", FORMATS.read_text().split("\n## Table of events\n")[1].split("\n## ")[0])
METHODS = ["session.status", "session.subscribe", "session.unsubscribe", "browsingContext.getTree", "foo.bar"]
SYNC = 9007199254740991


def compact(value):
    return json.dumps(value, ensure_ascii=False, separators=(",", ":"))


def is_in(name, outer):
    """Whether a name is this one, or in the module of this name."""
    return name == outer or name.startswith(outer + ".")


def is_found(part, value):
    """Whether a part of a row is found in a value of a command."""
    if isinstance(part, dict):
        if part and set(part) <= {"$starts", "$contains"}:
            return isinstance(value, str) and value.startswith(part.get("$starts", "")) and part.get("$contains", "") in value
        return isinstance(value, dict) and all(name in value and is_found(it, value[name]) for name, it in part.items())
    if isinstance(part, list):
        return isinstance(value, list) and len(value) >= len(part) and all(is_found(a, b) for a, b in zip(part, value))
    return type(part) is type(value) and part == value


class Machine:
    """The browser: a `bidi play` that is given a line at a time."""

    def __init__(self, program):
        self.process = subprocess.Popen([program, "play"], stdin=subprocess.PIPE, stdout=subprocess.PIPE)

    def take(self, line):
        """Gives it a line, and returns what it writes."""
        self.process.stdin.write(f"{line}\ndrop {SYNC}\n".encode())
        self.process.stdin.flush()
        found = []
        for said in self.process.stdout:
            said = said.decode().rstrip("\n")
            if said == f"lost {SYNC}":
                return found
            found.append(said)
        sys.exit(f"scripted_plays.py: the play ends at {line!r}")

    def end(self):
        self.process.stdin.close()
        self.process.wait()


class Test:
    """What a test keeps, and what is written for its lines."""

    def __init__(self, program):
        self.machine = Machine(program)
        self.rows, self.held, self.next = [], {}, 1
        self.followers, self.known = {}, []
        # The open connections with the session of each, or None; the lost commands are those of an earlier connection.
        self.open, self.lost = {}, set()
        # The live subscriptions: (session, id, names, scope), where the names are those of the profile and of the test.
        self.subscriptions, self.made = [], 0
        # The ids of those that the machine ended, and of which a name of the test is left.
        self.given_up = set()
        self.tabs = {TAB + "1"}

    # ---- what the machine does

    def run(self, line, asked=None):
        """Gives a line to the machine, and returns what is written for it, with the events that follow."""
        written = []
        for said in self.machine.take(line):
            written.append(said)
            self.note(said, asked)
            found = re.match(r"< (\d+) (\{.*\})$", said)
            if found and '"type":"event"}' in said:
                written += self.followed(found[1], json.loads(found[2]))
        return written

    def note(self, said, asked):
        """Notes what a written line says of connections and sessions."""
        word, _, rest = said.partition(" ")
        if word == "opened":
            self.open[int(rest)] = asked
        elif word == "close":
            self.open.pop(int(rest), None)
        elif word == "<" and '"capabilities"' in rest and '"type":"success"' in rest:
            conn, _, text = rest.partition(" ")
            self.open[int(conn)] = json.loads(text)["result"]["sessionId"]

    def followed(self, conn, event):
        params = event["params"]
        context = params.get("context", params.get("source", {}).get("context") if isinstance(params.get("source"), dict) else None)
        places = {"$context": context, "$navigation": params.get("navigation"), "$url": params.get("url")}

        def filled(value):
            if isinstance(value, dict):
                return {name: filled(it) for name, it in value.items()}
            if isinstance(value, list):
                return [filled(it) for it in value]
            return places.get(value, value) if isinstance(value, str) else value

        return [f"< {conn} " + compact({"method": it["method"], "params": filled(it["params"]), "type": "event"})
                for it in self.followers.get(event["method"], [])]

    # ---- names

    def is_known(self, name):
        return re.fullmatch(r"[A-Za-z0-9.:_-]{1,255}", name) is not None and any(it == "*" or is_in(name, it) for it in self.known)

    def is_foreign(self, name):
        return self.is_known(name) and name not in PROFILE + MODULES

    def emitted(self, event):
        """What is written for an event: once on each connection of each session that is subscribed to it. A module of the profile brings
        only further events, since its own events are listed one by one."""
        method, params = event["method"], event["params"]
        context = params.get("context")
        if "context" not in params and isinstance(params.get("source"), dict):
            context = params["source"].get("context")
        top = context if context in self.tabs else None
        sessions = [session for session, _, names, scope in self.subscriptions
                    if any(it == method or {it, method}.isdisjoint(PROFILE) and is_in(method, it) for it in names)
                    and (scope is None or (top is not None and (scope == "default" or top in scope)))]
        # Sessions come in order of their numbers, and the connections of each in order of opening.
        return [f"< {conn} " + compact({"method": method, "params": params, "type": "event"})
                for session in sorted(set(sessions)) for conn, of in self.open.items() if of == session]

    def expanded(self, names):
        """Names of the profile for modules and events, and further names of modules that are known."""
        found = []
        for name in names:
            if name in MODULES:
                found += [it for it in PROFILE if is_in(it, name)] + ([name] if self.is_known(name) else [])
            else:
                found.append(name)
        return found

    def subscribe(self, conn, command):
        """A subscribe while names are known."""
        session, params = self.open[conn], command["params"]
        names = params["events"]
        fault = None
        if any(it not in PROFILE + MODULES and not self.is_foreign(it) for it in names):
            fault = "invalid argument"
        elif "contexts" in params and "userContexts" in params:
            fault = "invalid argument"
        elif "contexts" in params and not set(params["contexts"]) <= self.tabs:
            fault = "no such frame"
        elif "userContexts" in params and not set(params["userContexts"]) <= {"default"}:
            fault = "no such user context"
        if fault:
            return [self.refusal(conn, command["id"], fault)]
        others = [it for it in names if not self.is_foreign(it)]
        if others:
            written = self.run(f"> {conn} " + compact({**command, "params": {**params, "events": others}}))
            number = json.loads(written[-1].split(" ", 2)[2])["result"]["subscription"]
        else:
            self.made += 1
            number = f"{int(session[-12:], 16):08x}{SUBSCRIPTION}8{self.made:011x}"
            written = [f"< {conn} " + compact({"id": command["id"], "result": {"subscription": number}, "type": "success"})]
        self.subscriptions.append((session, number, self.expanded(names), scope_of(params)))
        return written

    def unsubscribe(self, conn, command):
        """An unsubscribe while names are known."""
        session, params = self.open[conn], command["params"]
        mine = [it for it in self.subscriptions if it[0] == session]
        if "subscriptions" in params:
            ids = params["subscriptions"]
            if not set(ids) <= {it[1] for it in mine}:
                return [self.refusal(conn, command["id"], "invalid argument")]
            self.subscriptions = [it for it in self.subscriptions if it[0] != session or it[1] not in ids]
            rest = [it for it in ids if not re.search(SUBSCRIPTION + "8", it)]
            # What the machine gave up already, because the test kept a name of it, is not asked of it again.
            rest = [it for it in rest if it not in self.given_up]
            if rest:
                return self.run(f"> {conn} " + compact({**command, "params": {"subscriptions": rest}}))
            return [self.success(conn, command["id"])]
        names = params["events"]
        everywhere = {name for _, _, names_of, scope in mine if scope is None for name in names_of}
        wanted = self.expanded(names)
        known = [it for it in names if self.is_foreign(it)]
        for name in names:
            if name not in PROFILE + MODULES and not self.is_foreign(name):
                return [self.refusal(conn, command["id"], "invalid argument")]
        if not {it for it in wanted if it in PROFILE or it in known} <= everywhere:
            return [self.refusal(conn, command["id"], "invalid argument")]
        kept = []
        for of, number, names_of, scope in self.subscriptions:
            if of == session and scope is None:
                left = [it for it in names_of if it not in wanted]
                if left and any(it in PROFILE for it in names_of) and not any(it in PROFILE for it in left):
                    self.given_up.add(number)
                if left or not names_of:
                    kept.append((of, number, left, scope))
            else:
                kept.append((of, number, names_of, scope))
        self.subscriptions = kept
        others = [it for it in names if it not in known]
        if others:
            return self.run(f"> {conn} " + compact({**command, "params": {"events": others}}))
        return [self.success(conn, command["id"])]

    @staticmethod
    def success(conn, number):
        return f"< {conn} " + compact({"id": number, "result": {}, "type": "success"})

    @staticmethod
    def refusal(conn, number, code, message=None):
        return f"< {conn} " + compact({"error": code, "id": number, "message": message or code, "type": "error"})

    # ---- messages

    def hear(self, conn, text, rows=True):
        """What is written for a message."""
        if conn not in self.open:
            return self.run(f"> {conn} {text}")
        command = read(text)
        if command is None:
            return self.run(f"> {conn} {text}")
        if rows:
            for row in self.rows:
                if row["method"] == command["method"] and ("params" not in row or is_found(row["params"], command.get("params"))):
                    if "times" in row:
                        row["times"] -= 1
                        if row["times"] == 0:
                            self.rows.remove(row)
                    if row["holds"]:
                        number, self.next = self.next, self.next + 1
                        self.held[number] = (conn, text, command["id"])
                        return [f"held {number} {conn} {text}"]
                    return self.answered(conn, command["id"], row)
        if self.known and self.open[conn] is not None and fits(command):
            if command["method"] == "session.subscribe":
                return self.subscribe(conn, command)
            if command["method"] == "session.unsubscribe":
                return self.unsubscribe(conn, command)
        return self.plainly(conn, command, text)

    def plainly(self, conn, command, text):
        """The machine hears the message, and what it does to subscriptions is noted."""
        session, before = self.open[conn], dict(self.open)
        written = self.run(f"> {conn} {text}")
        reply = next((json.loads(it.split(" ", 2)[2]) for it in reversed(written) if it.startswith(f"< {conn} ") and '"id":' in it), {})
        if reply.get("type") == "success" and reply.get("id") == command["id"]:
            method, params = command["method"], command.get("params", {})
            if method == "session.subscribe":
                self.subscriptions.append((session, reply["result"]["subscription"], self.expanded(params["events"]), scope_of(params)))
            elif method == "session.unsubscribe" and "subscriptions" in params:
                self.subscriptions = [it for it in self.subscriptions if it[0] != session or it[1] not in params["subscriptions"]]
            elif method == "session.unsubscribe":
                wanted = self.expanded(params["events"])
                taken = [(of, number, [it for it in names if it not in wanted] if of == session and scope is None else names, scope)
                         for of, number, names, scope in self.subscriptions]
                self.subscriptions = [it for it, old in zip(taken, self.subscriptions) if it[2] or not old[2]]
            elif method == "session.end":
                self.subscriptions = [it for it in self.subscriptions if it[0] != session]
            elif method == "browsingContext.create":
                self.tabs = self.tabs | {reply["result"]["context"]}
        if session is not None and session not in self.open.values() and session in before.values():
            self.subscriptions = [it for it in self.subscriptions if it[0] != session]
        return written

    def answered(self, conn, number, reply):
        written = [line for it in reply.get("before", []) for line in self.emitted(it)]
        if "result" in reply:
            written.append(f"< {conn} " + compact({"id": number, "result": reply["result"], "type": "success"}))
        else:
            written.append(self.refusal(conn, number, reply["error"], reply.get("message")))
        return written + [line for it in reply.get("after", []) for line in self.emitted(it)]

    def release(self, number, reply):
        if number not in self.held:
            return ["no effect: no command of this number is held"]
        conn, text, of = self.held.pop(number)
        if number in self.lost or conn not in self.open:
            return [f"lost {conn}"]
        return self.hear(conn, text, rows=False) if reply is None else self.answered(conn, of, reply)

    # ---- lines

    def take(self, line):
        """What is written for a line."""
        word, _, rest = line.partition(" ")
        if word == ">":
            conn, _, text = rest.partition(" ")
            return self.hear(int(conn), text)
        if word == "open":
            conn, _, resource = rest.partition(" ")
            if int(conn) not in self.open:
                self.lost |= {number for number, it in self.held.items() if it[0] == int(conn)}
            session = resource.rpartition("/")[2]
            return self.run(line, session if resource.startswith("/session/") else None)
        if word == "drop":
            written = self.run(line)
            self.open.pop(int(rest), None)
            return written
        if word in ("answer", "hold"):
            row = json.loads(rest)
            row["holds"] = word == "hold"
            self.rows.insert(0, row)
        elif word == "unanswer":
            if not any(it["method"] == rest for it in self.rows):
                return ["no effect: no row is for this method"]
            self.rows = [it for it in self.rows if it["method"] != rest]
        elif word == "release":
            number, _, reply = rest.partition(" ")
            return self.release(int(number), json.loads(reply) if reply else None)
        elif word == "emit":
            return self.emitted(json.loads(rest))
        elif word == "on":
            method, _, events = rest.partition(" ")
            self.followers[method] = json.loads(events)
        elif word == "names":
            self.known += [it for it in dict.fromkeys(rest.split(" ")) if it not in self.known]
        else:
            return self.run(line)
        return []


def scope_of(params):
    """The scope of a subscription: tabs, the tabs of the default user context, or None for all."""
    return "default" if "userContexts" in params else params.get("contexts")


def read(text):
    """The command that a text is, if it is one."""
    try:
        value = json.loads(text)
    except ValueError:
        return None
    is_one = isinstance(value, dict) and isinstance(value.get("method"), str) and type(value.get("id")) is int and value["id"] >= 0
    return value if is_one else None


def fits(command):
    """Whether a subscribe or unsubscribe fits its rule. The plays have no further properties."""
    def texts(value):
        return isinstance(value, list) and value and all(isinstance(it, str) for it in value)

    params = command.get("params")
    if not isinstance(params, dict):
        return False
    if command["method"] == "session.subscribe":
        return texts(params.get("events")) and all(name not in params or texts(params[name]) for name in ("contexts", "userContexts"))
    return texts(params.get("subscriptions")) or texts(params.get("events"))


# ---- random plays


def event(r):
    params = r.choice([{}, {"context": TAB + r.choice("129")}, {"source": {"context": TAB + "1"}}, {"n": r.randrange(9), "l": ["é", None, "$url"]}])
    return {"method": r.choice(EVENTS + FOREIGN), "params": params}


def reply(r):
    found = {"result": {"n": r.randrange(9)}} if r.random() < 0.7 else {"error": r.choice(["no such frame", "my own"])}
    for name in ("before", "after"):
        if r.random() < 0.3:
            found[name] = [event(r) for _ in range(r.randrange(3))]
    return found


def row(r):
    found = {"method": r.choice(METHODS)}
    if r.random() < 0.4:
        found["params"] = r.choice([{}, {"events": [{"$contains": "o"}]}, {"events": ["log"]}, {"subscriptions": []}])
    if r.random() < 0.8:
        found["times"] = r.randrange(1, 3)
    return found


def message(r):
    method = r.choice(METHODS + ["session.subscribe"] * 6 + ["session.unsubscribe"] * 6 + ["browsingContext.create", "session.end"])
    params = {"browsingContext.create": {"type": "tab"}}.get(method, {})
    if method == "session.subscribe":
        params = {"events": r.sample(EVENTS + MODULES + FOREIGN * 3, r.randrange(1, 4))}
        if r.random() < 0.2:
            params["contexts"] = [TAB + r.choice("1129")]
        if r.random() < 0.15:
            params["userContexts"] = r.choice([["default"], ["default"], ["default", "other"], ["other"]])
        if r.random() < 0.05:
            params = r.choice([{"events": []}, {"events": ["foo.bar", 1]}, {"events": ["foo.bar"], "contexts": []}, {}])
    elif method == "session.unsubscribe":
        if r.random() < 0.5:
            params = {"events": r.sample(EVENTS + ["log", "script"] + FOREIGN * 3, r.randrange(1, 3))}
        else:
            params = {"subscriptions": [f"0000000{r.choice('112')}{SUBSCRIPTION}{r.choice('08')}0000000000{r.randrange(1, 6)}" for _ in range(r.randrange(1, 3))]}
    if r.random() < 0.04:
        return r.choice(["", "{", "[]", '{"id":1.5,"method":"foo.bar"}'])
    return compact({"id": r.randrange(1000), "method": method, "params": params})


def lines(r):
    """A random play: one or two sessions, and then lines of clients and of the test."""
    new = compact({"id": 0, "method": "session.new", "params": {"capabilities": {}}})
    yield from ["open 1 /session", "> 1 " + new, "open 2 /session"]
    if r.random() < 0.6:
        yield "> 2 " + new
    yield f"open 3 /session/{SESSION}1"
    names = ["names " + " ".join(r.sample(FOREIGN + ["*", "log", "browsingContext"], r.randrange(1, 4))) for _ in range(2)]
    if r.random() < 0.8:
        yield names[0]
    for _ in range(r.randrange(5, 60)):
        conn = r.choice("1112234")
        yield r.choice([
            f"> {conn} " + message(r), f"> {conn} " + message(r), f"> {conn} " + message(r), f"> {conn} " + message(r), f"> {conn} " + message(r),
            "emit " + compact(event(r)), "emit " + compact(event(r)), "emit " + compact(event(r)), names[1],
            "answer " + compact({**row(r), **reply(r)}), "hold " + compact(row(r)), f"release {r.randrange(1, 5)}",
            f"release {r.randrange(1, 5)} " + compact(reply(r)), "unanswer " + r.choice(METHODS),
            f"on {r.choice(EVENTS)} " + compact([event(r) for _ in range(r.randrange(3))]).replace(TAB + "1", "$context"),
            f"log {TAB}1 warn late", f"at {r.randrange(99)}", f"drop {conn}", f"open {conn} /session" + r.choice(["", f"/{SESSION}1"]),
        ])


def fault(program, r):
    """What is wrong with a random play, if anything is."""
    play = list(lines(r))
    ran = subprocess.run([program, "play", "--scripted"], input="".join(it + "\n" for it in play).encode(), capture_output=True, timeout=60)
    if ran.returncode:
        return play, f"status {ran.returncode}: {ran.stderr.decode(errors='replace').strip()}"
    test = Test(program)
    found, at = ran.stdout.decode().split("\n")[:-1], 0
    for number, line in enumerate(play):
        wanted = test.take(line)
        if found[at:at + len(wanted)] != wanted:
            return play[:number + 1], f"{line}\nwrites {found[at:at + len(wanted) + 1]}\nnot    {wanted}"
        at += len(wanted)
    test.machine.end()
    return (play, f"more is written: {found[at:]}") if at != len(found) else None


def main():
    parser = argparse.ArgumentParser(description="Holds random scripted plays against a second reading of docs/FORMATS.md.")
    parser.add_argument("program")
    parser.add_argument("--count", type=int, default=400)
    parser.add_argument("--seed", type=int, default=1)
    asked = parser.parse_args()
    program = os.path.abspath(asked.program)
    for n in range(asked.count):
        wrong = fault(program, random.Random(asked.seed * 1_000_000 + n))
        if wrong:
            sys.exit("\n".join(wrong[0]) + f"\nscripted_plays.py: seed {asked.seed}, play {n}: {wrong[1]}")
    print(f"{asked.count} scripted plays are as the document says")


if __name__ == "__main__":
    main()
