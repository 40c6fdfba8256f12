#!/usr/bin/env python3
"""Shows a play or a conversation as a sequence chart: look.py [--bidi PROGRAM] RECORD > look.html

RECORD is a record of `bidi host --record FILE`, any other play, or a conversation as `bidi check --both` reads it. `-` is
standard input. The first line decides: a conversation begins with `< `, or with `> ` and no number of a connection.

A play has only the lines that came in. `bidi play --scripted` writes what was sent for them, so the tool runs it: PROGRAM, else
the environment variable BIDI, else `bidi` on the path. After each line the tool sends a message on a connection that is never
open. `play` writes one `lost` line for it, which marks the end of the output of the line before. A conversation has both
directions, so no program is run.

The result is one HTML file without dependencies, readable without scripts. Its script adds a filter and highlights a command
together with its reply.
"""
import argparse
import base64
import hashlib
import html
import json
import math
import os
import re
import shutil
import subprocess
import sys
from dataclasses import dataclass, field
from functools import lru_cache
from itertools import accumulate
from typing import FrozenSet, List, Optional

MOST = 9007199254740991  # the largest js-uint
MOST_BYTES = 1048576  # of a command; a longer one counts as not JSON
MOST_LEVELS = 127  # of objects and arrays in JSON
BRIEF, ROOM = 80, 96  # characters of a text that its row shows; of a line of JSON below the row
WIDE = 70  # pixels of the lanes of the browser and of the page
KINDS = ("session", "context", "realm", "navigation", "subscription", "handle", "window", "user context")
ID = re.compile(r"([0-9a-f]{8})-000([1-8])-8000-8000-([0-9a-f]{12})")
STRING, BLANKS = re.compile(r'"[^"\\]*(?:\\.[^"\\]*)*"'), re.compile(r"[ \t\r\n]*")
FIELDS = ("on", "release", "send", "bytes", "raw", "stall", "resume", "cut", "close")  # the lines of a test whose first field is shown with the word
FOLDED = ("value", "answer", "hold", "emit", "on", "release", "send")  # the lines whose last field folds, however short
# The lines that `bidi play --scripted` writes.
WRITTEN = re.compile(rb"(opened|denied|lost|stall|resume) \d+|(cut|close) \d+( \d+)?|no effect(: .*)?|< \d+ .*|held \d+ \d+ .*|refuse \d+ \d+|(bytes|raw) \d+ \w*")
TALK = re.compile(rb"< |> (?!\d+ )")  # how a conversation begins
# What to do about a line that is not a line of a play, by its form.
ADVICE = (
    (rb"", "it is empty; remove it"),
    (rb"\xef\xbb\xbf.*", "it begins with a byte order mark; remove the mark"),
    (rb".*\r", "it ends in a carriage return; end lines in a line feed only"),
    (rb"reset|end", "no record has a `reset` or an `end`; remove it, and draw each file of a record by itself"),
    (rb">.*", "a message of a client has the number of its connection, as in `> 1 TEXT`"),
    (rb"(<|opened|denied|lost|held|no effect).*", "`bidi play` writes such lines; draw the record from which it made them"),
    (rb"[{\[].*", "docs/CHECKING.md says how to turn a log into the lines of a conversation"),
    (rb".*", "docs/FORMATS.md lists the lines of a play, in Play lines and in Scripted plays"))
CONTROL = re.compile(r"[\0-\x09\x0b-\x1f\x7f]")  # without the line feed, which only `layout` makes
OTHER = "name another program with --bidi or with the environment variable BIDI"


class Fault(Exception):
    """A fault that ends the run, with its message."""


@dataclass(eq=False)
class Row:
    """One line that came in or was sent, as the chart shows it."""

    name: str  # `i` and the number of the line that came in, or `o` and that of the line that was sent
    kind: str
    moment: str
    connection: Optional[str] = None
    label: str = ""
    brief: str = ""
    text: str = ""  # all of a text that folds
    id: Optional[int] = None
    marks: List[str] = field(default_factory=list)
    pair: Optional["Row"] = None  # the reply to a command, the command of a reply; the release of a held command, and back
    open: FrozenSet[str] = frozenset()  # the connections that are open throughout this row
    busy: str = ""  # this row's part of the bar from a command to its reply
    waits: bool = False  # whether a command is held at this row


# Reading a record, and running `bidi play --scripted`


def find_program(named):
    """Finds the program: the one that was named, else BIDI, else `bidi`."""
    wanted = named or os.environ.get("BIDI") or "bidi"
    found = shutil.which(wanted)
    if not found:
        raise Fault(f"no program {wanted}: name it with --bidi or with the environment variable BIDI")
    return found


def read_record(name):
    """Reads the bytes of the record."""
    try:
        if name == "-":
            return sys.stdin.buffer.read()
        with open(name, "rb") as file:
            return file.read()
    except OSError as error:
        raise Fault(f"cannot read {name}: {error.strerror}")


def unused_number(lines):
    """Finds the largest number that no line names as a connection."""
    used = {words[1] for words in (line.split(b" ", 2) for line in lines) if len(words) > 1}
    return next(number for number in range(MOST, 0, -1) if b"%d" % number not in used)


def advice(line, is_whole):
    """Says what to do about a line that is not a line of a play."""
    if not is_whole:
        return "it has no line feed at its end; add one, or remove the line if it is cut off"
    if line.decode(errors="ignore").encode() != line:
        return "it is not UTF-8; convert it, or remove it"
    return next(text for form, text in ADVICE if re.fullmatch(form, line, re.DOTALL))


def talk(record, name):
    """Lists each line of a conversation with its direction."""
    lines = record.split(b"\n")
    lines = lines if lines[-1] else lines[:-1]
    for number, line in enumerate(lines, 1):
        if line[:2] not in (b"> ", b"< "):
            raise Fault(f"{name}:{number}: not a line of a conversation: begin it with `> ` or `< `, or remove it")
    return [(line[:1], line[2:]) for line in lines]


def play(program, record, name):
    """Lists each line of the record with the lines that `bidi play --scripted` writes for it."""
    *lines, rest = record.split(b"\n")
    number = unused_number(lines)
    asked = b"".join(b"%b\n> %d {}\n" % (line, number) for line in lines) + rest
    try:
        done = subprocess.run([program, "play", "--scripted"], input=asked, stdout=subprocess.PIPE, stderr=subprocess.PIPE)
    except OSError as error:
        raise Fault(f"cannot run {program}: {error.strerror}")
    told = done.stderr.decode(errors="replace").strip().split("\n")
    said = next((line for line in told if line.startswith(("bidi: ", "error: "))), told[-1])
    bad = re.search(r"line (\d+) is no play line", said)
    if bad:
        place = (int(bad[1]) - 1) // 2
        raise Fault(f"{name}:{place + 1}: not a line of a play: {advice([*lines, rest][place], place < len(lines))}")
    answers = [[]]
    for line in done.stdout.split(b"\n")[:-1]:
        if line == b"lost %d" % number:
            answers.append([])
        elif WRITTEN.fullmatch(line):
            answers[-1].append(line.decode(errors="replace"))
        else:
            raise Fault(f"{program} play --scripted wrote a line that bidi does not write: {OTHER}")
    if done.returncode or len(answers) != len(lines) + 1:
        said = said or "some lines have no end"
        more = "" if said.startswith("bidi: ") else f": {OTHER}"
        raise Fault(f"{name}: {program} play --scripted ended with status {done.returncode}: {said}{more}")
    return list(zip((line.decode(errors="replace") for line in lines), answers))


# JSON, as docs/FORMATS.md takes it


def read_number(text):
    """Reads a number. One with a fraction or an exponent, and `-0`, are floats."""
    if not math.isfinite(float(text)):
        raise ValueError("not a number of JSON")
    return int(text) if text.lstrip("-").isdigit() and text != "-0" else float(text)


DECODER = json.JSONDecoder(parse_float=read_number, parse_int=read_number, parse_constant=read_number)


def read_json(text):
    """Reads JSON, or raises a ValueError."""
    try:
        tree = DECODER.decode(text)
    except RecursionError:
        raise ValueError("too many levels")
    levels = accumulate((each in "[{") - (each in "]}") for each in STRING.sub("0", text))
    if text.count("[") + text.count("{") > MOST_LEVELS and max(levels) > MOST_LEVELS:
        raise ValueError("too many levels")
    if "\\u" in text:
        json.dumps(tree, ensure_ascii=False).encode()  # raises a ValueError if a surrogate is alone
    return tree


def parts(text):
    """Splits an object or an array: the name of each part, the text up to its value, and the text of its value."""
    found, at = [], BLANKS.match(text, 1).end()
    while text[at] not in "]}":
        start, name = at, None
        if text[0] == "{":
            name, at = DECODER.raw_decode(text, at)
            at = BLANKS.match(text, BLANKS.match(text, at).end() + 1).end()
        begin = at
        at = DECODER.raw_decode(text, at)[1]
        found.append((name, text[start:begin], text[begin:at]))
        at = BLANKS.match(text, at).end()
        if text[at] == ",":
            at = BLANKS.match(text, at + 1).end()
    return found


def short_id(found):
    """Names the thing of an id by its kind and number."""
    session, kind, number = int(found[1], 16), KINDS[int(found[2]) - 1], int(found[3], 16)
    if kind == "subscription":
        return f"‹{kind} {number} of session {session}›"
    return found[0] if session else f"‹{kind} {number}›"


def brief(text):
    """The first characters of a text, with short ids."""
    short = ID.sub(short_id, text[: 8 * BRIEF])
    return short if len(short) <= BRIEF else short[: BRIEF - 1] + "…"


@lru_cache(1000)
def brief_member(text, name):
    """The first characters of a member of an object, empty without one."""
    return brief(next((value for each, _, value in reversed(parts(text)) if each == name), ""))


def layout(text, indent="", name=""):
    """Lays JSON out on lines. A part that fits on one line keeps its text."""
    if text[0] not in "{[" or len(indent) + len(name) + len(text) <= ROOM:
        return text
    lines = [indent + "  " + name + layout(value, indent + "  ", name) for _, name, value in parts(text)]
    return text[0] + "\n" + ",\n".join(lines) + "\n" + indent + text[-1]


# Rows


def as_id(tree):
    """The id of a message, or None if it has none that is a js-uint."""
    found = tree.get("id") if isinstance(tree, dict) else None
    return found if type(found) is int and 0 <= found <= MOST else None


def join(command, row):
    """Joins a command and its reply."""
    row.pair, command.pair, row.label = command, row, command.label


class Chart:
    """The rows of a play or of a conversation, in steps: a line that came in, and the lines that were sent for it."""

    def __init__(self, moment):
        self.lanes, self.open, self.moment, self.held = {}, frozenset(), moment, {}

    def take(self, steps):
        """Takes the steps, and marks the commands without a reply."""
        self.steps, self.rows = steps, [row for step in steps for row in step]
        for row in self.rows:
            row.marks += ["never answered"] if row.kind == "command" and not row.pair else []

    def row(self, name, kind, connection=None, **more):
        """Makes a row at this moment. Its connection, if it has one, gets a lane."""
        if connection is not None:
            self.lanes.setdefault(connection, len(self.lanes))
        return Row(name, kind, self.moment, connection, open=self.open, waits=bool(self.held), **more)

    def asked(self, name, connection, text):
        """Makes the row of a message of a client."""
        row = self.row(name, "command", connection, label="no command", brief=brief(text), text=text)
        try:
            tree = read_json(text)
            if len(text.encode()) > MOST_BYTES:
                raise ValueError("too long")
        except ValueError:
            row.label, row.marks = "", ["not JSON"]
            return row
        row.id = as_id(tree)
        if isinstance(tree, dict) and isinstance(tree.get("method"), str):
            row.label, row.brief = tree["method"], brief_member(text.strip(), "params")
        return row

    def message(self, name, connection, text):
        """Makes the row of a message that was sent: an event, a reply, or something that is neither."""
        row = self.row(name, "other", connection, label="no message", brief=brief(text), text=text)
        try:
            tree = read_json(text)
        except ValueError:
            row.label, row.marks = "", ["not JSON"]
            return row
        row.id, said = as_id(tree), tree.get("type") if isinstance(tree, dict) else None
        if said == "event" and isinstance(tree.get("method"), str):
            row.kind, row.label, row.brief = "event", tree["method"], brief_member(text.strip(), "params")
        elif said == "success":
            row.kind, row.label, row.brief = "reply", "", brief_member(text.strip(), "result")
        elif said == "error":
            code, words = tree.get("error"), tree.get("message")
            row.kind, row.label, row.marks = "error", "", [code if isinstance(code, str) else "error"]
            row.brief = "" if words == code else brief_member(text.strip(), "message")
        return row


class Play(Chart):
    """The rows of a play."""

    has_page, widest = True, 84
    columns = (("in", "line of the record"), ("out", "line that bidi play writes"), ("moment", "the clock"))
    legend = (("command", "command"), ("reply", "reply"), ("error", "error"), ("event", "event"), ("page", "page"),
              ("clock", "clock"), ("open", "open"), ("begin", "opened"), ("end", "closed"), ("stop", "denied or lost"))
    counted = ("never answered", "not JSON", "denied", "lost", "close", "no effect")

    def __init__(self, played):
        super().__init__("0")
        self.sent, self.command, self.waiting = 0, None, []
        self.take([self.step(number, line, answers) for number, (line, answers) in enumerate(played, 1)])

    def lane(self, connection, width):
        """The name of a lane of this width."""
        return f"connection {connection}" if width > 70 else connection if width > 16 else ""

    def step(self, number, line, answers):
        """Makes the rows of one step. `play` answers a message in its step, or in that of its release."""
        came = self.came(f"i{number}", line)
        released = self.released(came, line, answers)
        self.command = came if came.kind == "command" else released
        rows = [came]
        for answer in answers:
            self.sent += 1
            rows.append(self.went(f"o{self.sent}", answer))
        last = next((place for place, row in enumerate(rows) if row.kind == "held" or row.pair and row.pair is self.command), 0)
        for place, row in enumerate(rows[: last + 1] if last else []):
            row.busy = "busy first" if place == 0 else "busy last" if place == last else "busy"
        return rows

    def released(self, came, line, answers):
        """The command that a line releases, if it does. Its row and that of the line are joined."""
        word, _, rest = line.partition(" ")
        number = rest.partition(" ")[0]
        if word != "release" or number not in self.held or answers[:1] and answers[0].startswith("no effect"):
            return None
        row, command = self.held.pop(number)
        row.pair, came.pair = came, row
        return command

    def came(self, name, line):
        """Makes the row of a line of the play."""
        word, _, rest = line.partition(" ")
        if word == "at":
            self.moment = rest
            return self.row(name, "clock", label=line)
        connection, _, text = rest.partition(" ")
        if word == ">":
            return self.asked(name, connection, text)
        if word == "binary":
            return self.row(name, "command", connection, label="binary message", marks=["not JSON"])
        if word in ("open", "drop"):
            kind = "end" if word == "drop" and connection in self.open else "open"
            if word == "drop":
                self.end(connection)
            return self.row(name, kind, connection, label=word, brief=brief(text))
        label, text = (f"{word} {connection}", text) if word in FIELDS else (word, rest)
        folds = word in FOLDED or len(text) > BRIEF
        return self.row(name, "page", label=label, brief=brief(text), text=text if folds else "")

    def end(self, connection):
        """Ends a connection. Its commands wait no more."""
        self.open -= {connection}
        self.waiting = [row for row in self.waiting if row.connection != connection]

    def went(self, name, line):
        """Makes the row of a line that `bidi play` wrote."""
        word, _, rest = line.partition(" ")
        connection, _, text = rest.partition(" ")
        if word == "<":
            return self.answered(self.message(name, connection, text))
        if word == "no":
            return self.row(name, "void", marks=["no effect"], brief=brief(line[len("no effect: "):]))
        if word == "held":
            return self.hold(name, connection)
        if word in ("bytes", "raw"):
            folded = text if len(text) > BRIEF else ""
            label = "binary message" if word == "bytes" else "bytes without a frame"
            return self.row(name, "other", connection, label=label, brief=brief(text), text=folded)
        if word == "refuse":
            return self.row(name, "other", marks=[word], brief=rest)
        if word in ("stall", "resume"):
            return self.row(name, "other", connection, marks=[word])
        if word == "cut" and text:
            return self.row(name, "other", connection, marks=[word], brief=text)
        if word in ("close", "cut"):
            self.end(connection)
        kind = {"opened": "begin", "close": "end", "cut": "end"}.get(word, "stop")
        row = self.row(name, kind, connection, marks=[word], brief=text)
        self.open |= {connection} if word == "opened" else frozenset()
        return row

    def hold(self, name, number):
        """Makes the row that says that the command of this step is held."""
        self.waiting.append(self.command)
        self.held[number] = None
        command = self.command
        row = self.row(name, "held", command.connection, label=command.label, id=command.id, marks=[f"held {number}"])
        self.held[number] = row, command
        return row

    def answered(self, row):
        """Joins a reply to the command of this step, or else to a held command with its id. A test can send any other."""
        ours = [self.command] if self.command else [each for each in self.waiting if row.id is not None and each.id == row.id]
        found = next((each for each in ours if each.connection == row.connection and not each.pair), None)
        if found and row.kind != "event":
            join(found, row)
        row.marks += ["stray"] if not found and row.kind in ("reply", "error") else []
        return row


class Conversation(Chart):
    """The rows of a conversation: a message of the client, and those of the browser up to the next one."""

    has_page, widest = False, 160
    columns = (("in", "line with a message of the client"), ("out", "line with a message of the browser"), ("", ""))
    legend = (("command", "command"), ("reply", "reply"), ("error", "error"), ("event", "event"))
    counted = ("never answered", "not JSON")

    def __init__(self, lines):
        super().__init__("")
        self.open, self.waiting, self.last, steps = frozenset({""}), {}, None, []
        for number, (mark, data) in enumerate(lines, 1):
            text = data.decode(errors="replace")
            row = self.sent(f"i{number}", text) if mark == b">" else self.got(f"o{number}", text)
            row.marks += ["not UTF-8"] if text.encode() != data else []
            if mark == b">" or not steps:
                steps.append([])
            steps[-1].append(row)
        self.take(steps)

    def lane(self, connection, width):
        """The name of the lane."""
        return "client"

    def sent(self, name, text):
        """Makes the row of a message of the client, which waits for an answer unless one with its id does."""
        self.last = row = self.asked(name, "", text)
        if row.id is not None and self.waiting.setdefault(row.id, row) is not row:
            row.marks.append("id waits")
        return row

    def got(self, name, text):
        """Makes the row of a message of the browser, which answers the command with its id, unless it is an event.

        An error without an id answers the last message of the client, if that has no id either.
        """
        row, last = self.message(name, "", text), self.last
        if row.id is not None and row.kind != "event":
            found = self.waiting.pop(row.id, None)
        else:
            found = last if row.kind == "error" and last and last.id is None and not last.pair else None
        if found:
            join(found, row)
        row.marks += ["stray"] if not found and row.kind in ("reply", "error") else []
        return row


# HTML


def shown(text):
    """A text as HTML that shows it, with pictures of its control characters."""
    return html.escape(CONTROL.sub(lambda found: chr(0x2421 if found[0] == "\x7f" else 0x2400 + ord(found[0])), text))


@lru_cache(1000)
def unfolded(text):
    """All of a text as HTML: JSON on lines of its own, any other text as it is."""
    try:
        read_json(text)
        return shown(layout(text.strip()))
    except ValueError:
        return shown(text)


def link(row):
    """The link from a command to its reply, from a held command to its release, or back."""
    if not row.pair:
        return ""
    links = {"command": ("↓", "its reply"), "held": ("↓", "its release"), "page": ("↑", "the held command")}
    way, what = links.get(row.kind, ("↑", "its command"))
    return f'<a href="#{row.pair.name}" title="{what}">{way} {row.pair.name[1:]}</a>'


def says(row):
    """What a row says: its connection, label, id and marks, and its text, folded."""
    said = [f'<span class="conn">{shown(row.connection)}</span>'] if row.connection else []
    said += [f"<b>{shown(row.label)}</b>"] if row.label else []
    if row.kind in ("command", "held", "reply", "error"):
        said += ['<span class="id">%s</span>' % ("no id" if row.id is None else f"id {row.id}")]
    said += [f"<mark>{shown(mark)}</mark>" for mark in row.marks]
    said += [f"<code>{shown(row.brief)}</code>"] if row.brief else []
    if not row.text:
        return f'<div class="says">{" ".join(said)}</div>'
    return f'<details class="says"><summary>{" ".join(said)}</summary><pre>{unfolded(row.text)}</pre></details>'


def counts(chart):
    """The counts at the top, each with a link to its first row."""
    kinds = (("messages in", "command"), ("messages out", "reply error event other"), ("events", "event"), ("errors", "error"))
    found = [(name, [row for row in chart.rows if row.kind in each.split()]) for name, each in kinds]
    found += [(mark, [row for row in chart.rows if mark in row.marks]) for mark in chart.counted]
    rare = [("held", [row for row in chart.rows if row.kind == "held"])]
    rare += [(mark, [row for row in chart.rows if mark in row.marks]) for mark in ("cut", "stray", "id waits", "not UTF-8")]
    found += [(name, rows) for name, rows in rare if rows]
    return " ".join(f'<a href="#{rows[0].name}">{name} <b>{len(rows)}</b></a>' if rows else f"<span>{name} <b>0</b></span>"
                    for name, rows in found)


def drawing(chart):
    """Draws the lanes: the style of each, the names at their heads, and a number for each set of open connections."""
    count = len(chart.lanes)
    lane = min(chart.widest, 330 / max(count, 1))
    middle = {each: (place + 0.5) * lane for each, place in chart.lanes.items()}
    sides = {"browser": count * lane + 0.5 * WIDE, **({"page": count * lane + 1.5 * WIDE} if chart.has_page else {})}
    width, browser, page = count * lane + len(sides) * WIDE, sides["browser"], sides.get("page", 0)
    color, half = "#d0d7de" if lane > 6 else "transparent", lane / 2
    line = f"transparent 0 {half - 0.5}px,{color} 0 {half + 0.5}px,transparent 0 {lane}px"
    lines = [f"repeating-linear-gradient(90deg,{line}) 0 0/{count * lane}px 100% no-repeat"]
    lines += [f"var(--line) {at - 0.5}px 0/1px 100% no-repeat" for at in sides.values()]
    digits = max((len(row.name) - 1 for row in chart.rows), default=1)
    moment = max((len(row.moment) for row in chart.rows), default=1)
    columns = [max(40, 12 + 8 * digits)] * 2 + [max(64, 12 + 8 * moment) if chart.has_page else 8, width, max(48, 24 + 8 * digits)]
    style = [f".row{{grid-template-columns:{''.join(f'{each}px ' for each in columns)}minmax(0,1fr)}}",
             f"main .chart{{background:{','.join(lines)}}}",
             f".busy .chart::before{{left:{browser - 4}px}} main .void i{{left:{page}px}}",
             f"main .page i,main .clock i{{left:{browser}px;right:{width - page}px}}",
             f"main .held i{{left:{browser}px}} .waits .chart::after{{left:{browser + 6}px}}"]
    style += [f".c{place} i{{left:{middle[each]:.1f}px;right:{width - browser}px}}" for each, place in chart.lanes.items()]
    sets = {each: place for place, each in enumerate(dict.fromkeys(row.open for row in chart.rows))}
    for each, place in sets.items():
        opens = [f"var(--open) {middle[one] - 1:.1f}px 0/2px 100% no-repeat" for one in middle if one in each]
        style.append(f".o{place} .chart{{background:{','.join(opens + lines)}}}")
    names = [(at, lane, each, chart.lane(each, lane)) for each, at in middle.items()]
    names += [(at, WIDE, side, side) for side, at in sides.items()]
    heads = "".join(f'<span style="left:{at - wide / 2:.1f}px;width:{wide:.1f}px" title="{shown(title)}">{shown(name)}</span>'
                    for at, wide, title, name in names)
    return "\n".join(style), heads, sets


def row_html(row, lane, lines):
    """A row: the numbers of its line, the moment, the chart, the link of its pair, and what it says."""
    came, went = (row.name[1:], "") if row.name[0] == "i" else ("", row.name[1:])
    never = "never" if "never answered" in row.marks else ""
    waits = " waits" if row.waits else ""
    return (f'<div id="{row.name}" class="row {row.kind} {row.busy} {never} o{lines} c{lane}{waits}"><span class="n">{came}</span>'
            f'<span class="n">{went}</span><span class="n">{shown(row.moment)}</span><span class="chart"><i></i></span>'
            f'<span class="pair">{link(row)}</span>{says(row)}</div>')


def page(chart, name):
    """The whole page."""
    style, heads, sets = drawing(chart)
    columns = "\n".join(f'<span class="n" title="{title}">{column}</span>' for column, title in chart.columns)
    kinds = {row.kind for row in chart.rows}
    legend = chart.legend + tuple(each for each in (("held", "held"), ("other", "other message")) if each[0] in kinds)
    legend = "".join(f'<span class="row {kind}"><span class="chart"><i></i></span>{text}</span>' for kind, text in legend)
    steps = "\n".join('<section>%s</section>' % "".join(row_html(row, chart.lanes.get(row.connection, ""), sets[row.open])
                                                       for row in step) for step in chart.steps)
    hashed = base64.b64encode(hashlib.sha256(SCRIPT.encode()).digest()).decode()
    return f"""<!DOCTYPE html>
<html lang="en"><head><meta charset="utf-8"><title>{shown(name)}</title>
<meta http-equiv="Content-Security-Policy"
content="default-src 'none'; style-src 'unsafe-inline'; script-src 'sha256-{hashed}'">
<style>{STYLE}{style}</style></head><body>
<header><p id="tools" hidden><span id="left"></span> <input id="filter" type="search" placeholder="filter"></p>
<h1>{shown(name)}</h1><p class="counts">{counts(chart)}</p><p class="legend">{legend}</p></header>
<div class="row head">{columns}
<span class="chart">{heads}</span><span class="pair">pair</span><span>message</span></div>
<main>{steps}</main>
<script>{SCRIPT}</script></body></html>
"""


STYLE = """
:root{--open:linear-gradient(#0969da,#0969da);--line:linear-gradient(#d0d7de,#d0d7de)}
*{box-sizing:border-box} [hidden]{display:none!important}
body{margin:0;font:14px/24px system-ui,"DejaVu Sans",sans-serif;color:#1f2328}
header{padding:12px 16px 0} h1{font-size:20px;margin:0 0 4px} p{margin:4px 0} #tools{position:absolute;right:16px;top:6px}
#left{color:#57606a;font-size:12px}
.counts a,.counts span{display:inline-block;margin-right:18px;color:inherit;text-decoration-color:#afb8c1;
    text-underline-offset:3px}
.counts span{color:#8c959f}
.row{display:grid;--c:#57606a}
.command,.held{--c:#0969da} .reply{--c:#1a7f37} .error,.stop,.never{--c:#cf222e} .event{--c:#8250df}
.page,.clock,.void{--c:#9a6700}
section{border-top:1px solid #e6eaef;content-visibility:auto;contain-intrinsic-size:auto 49px}
section:nth-child(even){background:#f6f8fa}
.n{padding-right:8px;text-align:right;color:#8c959f;font-size:12px;font-variant-numeric:tabular-nums}
.head{position:sticky;top:0;z-index:2;align-items:end;padding:6px 0;background:#fff;border-bottom:2px solid #8c959f;
    font:600 12px/15px sans-serif}
.head .chart span{position:absolute;bottom:0;text-align:center;overflow:hidden;text-overflow:ellipsis}
.chart{position:relative;min-height:24px} .head .chart{min-height:30px}
.chart i{position:absolute;top:11px;border-top:2px solid var(--c)}
.chart i::after{content:"";position:absolute;top:-6px;border:5px solid transparent}
.command i::after,.open i::after{right:0;border-left:9px solid var(--c);border-right:0}
.reply i::after,.error i::after,.event i::after,.other i::after,.page i::after{left:0;border-right:9px solid var(--c);border-left:0}
.reply i,.error i,.open i,.clock i{border-top-style:dashed}
.clock i::after{left:auto;right:-5px;top:-7px;width:11px;height:11px;border:2px solid var(--c);border-radius:50%;
    background:#fff}
.begin i,.end i,.stop i,.void i,.held i{border:0;right:auto!important}
.held i::after{left:-5px;top:-6px;width:10px;height:13px;border:solid var(--c);border-width:0 3px;background:#fff}
.waits .chart::after{content:"";position:absolute;top:0;bottom:0;width:5px;
    background:repeating-linear-gradient(135deg,#0969da 0 2px,#cfe3fb 2px 5px)}
.waits i{z-index:1}
.begin i{bottom:0;margin-left:-1px;border-left:2px solid #0969da}
.begin i::after{left:-6px;top:-5px;width:10px;height:10px;border:0;border-radius:50%;background:#0969da}
.end i{top:0;height:12px;margin-left:-1px;border-left:2px solid #0969da}
.end i::after,.stop i::after,.void i::after{content:"✕";left:-8px;top:0;width:14px;border:0;
    font:bold 14px/24px sans-serif;color:var(--c)}
.stop i::after,.void i::after{top:-11px;left:-7px}
.busy .chart::before{content:"";position:absolute;top:0;bottom:0;width:9px;background:#cfe3fb;border:solid #0969da;
    border-width:0 1px}
.first .chart::before{top:12px;border-top-width:1px} .last .chart::before{bottom:auto;height:12px;border-bottom-width:1px}
.pair{font-size:12px;padding-left:4px;white-space:nowrap;font-variant-numeric:tabular-nums}
.pair a{color:inherit;text-decoration:none}
.says,summary{min-width:0;overflow:hidden;text-overflow:ellipsis;white-space:nowrap} summary{cursor:pointer}
.says{padding-right:12px} div.says{padding-left:17px}
b{font-weight:600;color:var(--c)} .counts b{color:inherit} .id{color:#57606a;font-size:12px}
.conn{display:inline-block;min-width:18px;padding:0 4px;border-radius:9px;background:#eaeef2;font-size:11px;
    line-height:16px;text-align:center}
mark{padding:1px 7px;border-radius:9px;background:var(--c);color:#fff;font-size:12px} .command mark,.reply mark{background:#bc4c00}
.never mark{background:#cf222e}
code,pre{font:12px/18px ui-monospace,"DejaVu Sans Mono",monospace;unicode-bidi:isolate} code{color:#57606a}
pre{margin:2px 8px 8px 17px;padding:8px;background:#fff;border:1px solid #d0d7de;border-radius:6px;white-space:pre-wrap;
    overflow-wrap:anywhere}
.legend .row{display:inline-flex;margin-right:16px;gap:6px} .legend .chart{width:34px} .legend .chart i{left:2px;right:2px}
.legend .begin i,.legend .end i,.legend .stop i,.legend .held i{left:17px} .legend .clock i{right:8px}
main .row{scroll-margin-top:60px} :target,.lit{background:#fff3c4}
"""

SCRIPT = """
const steps = [...document.querySelectorAll("section")], box = document.getElementById("filter");
let lit = [];
function light(event) {
    lit.forEach(row => row.classList.remove("lit"));
    const row = event.target.closest("main .row"), link = row && row.querySelector(".pair a");
    lit = link ? [row, document.getElementById(link.hash.slice(1))] : [];
    lit.forEach(row => row.classList.add("lit"));
}
function filter() {
    const wanted = box.value.toLowerCase();
    steps.forEach(step => step.hidden = !step.textContent.toLowerCase().includes(wanted));
    document.getElementById("left").textContent = `${steps.filter(step => !step.hidden).length} of ${steps.length} steps`;
}
document.addEventListener("mouseover", light);
box.addEventListener("input", filter);
document.getElementById("tools").hidden = false;
filter();
"""


def main(arguments=None):
    """Reads the command line and writes the page."""
    parser = argparse.ArgumentParser(
        description="Shows a play or a conversation as a sequence chart, one HTML file on standard output.")
    parser.add_argument("--bidi", metavar="PROGRAM", help="the program bidi; without it BIDI of the environment, else bidi")
    parser.add_argument("record", metavar="RECORD", help="a record of bidi host, any other play, or a conversation as "
                        "bidi check --both reads it; - is standard input")
    options = parser.parse_args(arguments)
    name = "standard input" if options.record == "-" else options.record
    try:
        record = read_record(options.record)
        if TALK.match(record):
            chart = Conversation(talk(record, name))
        else:
            chart = Play(play(find_program(options.bidi), record, name))
    except Fault as fault:
        print(f"look: {fault}", file=sys.stderr)
        return 2
    sys.stdout.buffer.write(page(chart, os.path.basename(name)).encode())
    return 0


if __name__ == "__main__":
    sys.exit(main())
