#!/usr/bin/env python3
"""Tests tools/look.py: python3 tools/look_test.py

It runs over the program that BIDI names. Without BIDI it runs over a program that writes the lines below. The lines follow
docs/FORMATS.md.
"""
import contextlib
import io
import os
import re
import subprocess
import sys
import tempfile
import unittest
from html.parser import HTMLParser
from pathlib import Path

LOOK = Path(__file__).resolve().parent / "look.py"
sys.path.insert(0, str(LOOK.parent))
import look  # noqa: E402

# Each line of a play, and below it the lines that `bidi play` writes for it.
PLAY = """
open 1 /session
    opened 1
> 1 {"id":1,"method":"session.status","params":{}}
    < 1 {"id":1,"result":{"message":"ready","ready":true},"type":"success"}
> 1 {"id":1
    < 1 {"error":"invalid argument","id":null,"message":"invalid argument","type":"error"}
> 1 {"id":9007199254740991,"method":"session.fly","params":{}}
    < 1 {"error":"unknown command","id":9007199254740991,"message":"unknown command","type":"error"}
> 1 {"id":-0,"method":"session.status","params":{}}
    < 1 {"error":"invalid argument","id":null,"message":"invalid argument","type":"error"}
> 1 null
    < 1 {"error":"invalid argument","id":null,"message":"invalid argument","type":"error"}
binary 1
    < 1 {"error":"invalid argument","id":null,"message":"invalid argument","type":"error"}
open 1 /session
    denied 1
open 2 /<b>other</b>
    denied 2
at 1500
unframe 00000000-0002-8000-8000-000000000001
    no effect
> 1 {"id":1,"method":"session.new","params":{"capabilities":{}}}
    < 1 {"id":1,"result":{"capabilities":{"acceptInsecureCerts":false,"browserName":"b","browserVersion":"1","platformName":"p",\
"setWindowRect":false,"userAgent":"u"},"sessionId":"00000000-0001-8000-8000-000000000001"},"type":"success"}
> 1 {"id":2,"method":"session.subscribe","params":{"events":["log.entryAdded"]}}
    < 1 {"id":2,"result":{"subscription":"00000001-0005-8000-8000-000000000001"},"type":"success"}
log 00000000-0002-8000-8000-000000000001 info <script>alert(1)</script>
    < 1 {"method":"log.entryAdded","params":{"args":[{"type":"string","value":"<script>alert(1)</script>"}],"level":"info",\
"method":"info","source":{"context":"00000000-0002-8000-8000-000000000001","realm":"00000000-0003-8000-8000-000000000001"},\
"text":"<script>alert(1)</script>","timestamp":1500,"type":"console"},"type":"event"}
open 3 /session/00000000-0001-8000-8000-000000000001
    opened 3
> 3 {"id":2,"method":"session.end","params":{}}
    < 3 {"id":2,"result":{},"type":"success"}
    close 1
    close 3
> 1 {"id":5,"method":"session.status","params":{}}
    lost 1
drop 3
    lost 3
open 9007199254740991 /session
    opened 9007199254740991
> 9007199254740991 {"id":1,"method":"session.status","params":{}}
    < 9007199254740991 {"id":1,"result":{"message":"ready","ready":true},"type":"success"}
drop 9007199254740991
"""

# The rows of its chart: the line, its kind, the moment, its label, its marks, and the row that it is joined to.
ROWS = """
i1 | open | 0 | open | |
o1 | begin | 0 | | opened |
i2 | command | 0 | session.status | | o2
o2 | reply | 0 | session.status | | i2
i3 | command | 0 | | not JSON | o3
o3 | error | 0 | | invalid argument | i3
i4 | command | 0 | session.fly | | o4
o4 | error | 0 | session.fly | unknown command | i4
i5 | command | 0 | session.status | | o5
o5 | error | 0 | session.status | invalid argument | i5
i6 | command | 0 | no command | | o6
o6 | error | 0 | no command | invalid argument | i6
i7 | command | 0 | binary message | not JSON | o7
o7 | error | 0 | binary message | invalid argument | i7
i8 | open | 0 | open | |
o8 | stop | 0 | | denied |
i9 | open | 0 | open | |
o9 | stop | 0 | | denied |
i10 | clock | 1500 | at 1500 | |
i11 | page | 1500 | unframe | |
o10 | void | 1500 | | no effect |
i12 | command | 1500 | session.new | | o11
o11 | reply | 1500 | session.new | | i12
i13 | command | 1500 | session.subscribe | | o12
o12 | reply | 1500 | session.subscribe | | i13
i14 | page | 1500 | log | |
o13 | event | 1500 | log.entryAdded | |
i15 | open | 1500 | open | |
o14 | begin | 1500 | | opened |
i16 | command | 1500 | session.end | | o15
o15 | reply | 1500 | session.end | | i16
o16 | end | 1500 | | close |
o17 | end | 1500 | | close |
i17 | command | 1500 | session.status | never answered |
o18 | stop | 1500 | | lost |
i18 | open | 1500 | drop | |
o19 | stop | 1500 | | lost |
i19 | open | 1500 | open | |
o20 | begin | 1500 | | opened |
i20 | command | 1500 | session.status | | o21
o21 | reply | 1500 | session.status | | i20
i21 | end | 1500 | drop | |
"""

# A record with lines of a scripted play, in the same form.
SCRIPTED = """
names *
open 1 /session
    opened 1
> 1 {"id":1,"method":"session.new","params":{"capabilities":{}}}
    < 1 {"id":1,"result":{"capabilities":{"acceptInsecureCerts":false,"browserName":"b","browserVersion":"1","platformName":"p",\
"setWindowRect":false,"userAgent":"u"},"sessionId":"00000000-0001-8000-8000-000000000001"},"type":"success"}
> 1 {"id":2,"method":"session.subscribe","params":{"events":["network","browsingContext.navigationStarted"]}}
    < 1 {"id":2,"result":{"subscription":"00000001-0005-8000-8000-000000000001"},"type":"success"}
hold {"method":"browsingContext.navigate"}
answer {"method":"network.addIntercept","result":{"intercept":"one"},"before":[{"method":"network.fetchError","params":{"n":1.50}}]}
> 1 {"id":3,"method":"network.addIntercept","params":{}}
    < 1 {"method":"network.fetchError","params":{"n":1.50},"type":"event"}
    < 1 {"id":3,"result":{"intercept":"one"},"type":"success"}
> 1 {"id":4,"method":"browsingContext.navigate","params":{"context":"00000000-0002-8000-8000-000000000001","url":"http://a.test/"}}
    held 1 1 {"id":4,"method":"browsingContext.navigate","params":{"context":"00000000-0002-8000-8000-000000000001",\
"url":"http://a.test/"}}
> 1 {"id":5,"method":"session.status","params":{}}
    < 1 {"id":5,"result":{"message":"ready","ready":true},"type":"success"}
> 1 {"id":6,"method":"browsingContext.navigate","params":{}}
    held 2 1 {"id":6,"method":"browsingContext.navigate","params":{}}
unanswer browsingContext.navigate
on browsingContext.navigationStarted [{"method":"network.beforeRequestSent","params":{"navigation":"$navigation"}}]
at 20
release 1
    < 1 {"method":"browsingContext.navigationStarted","params":{"context":"00000000-0002-8000-8000-000000000001",\
"navigation":"00000000-0004-8000-8000-000000000001","timestamp":20,"url":"http://a.test/"},"type":"event"}
    < 1 {"method":"network.beforeRequestSent","params":{"navigation":"00000000-0004-8000-8000-000000000001"},"type":"event"}
    < 1 {"id":4,"result":{"navigation":"00000000-0004-8000-8000-000000000001","url":"http://a.test/"},"type":"success"}
release 2 {"error":1}
    no effect: REASON
release 2 {"error":"unknown error","message":"no network"}
    < 1 {"error":"unknown error","id":6,"message":"no network","type":"error"}
release 2
    no effect: REASON
emit {"method":"network.fetchError","params":{}}
    < 1 {"method":"network.fetchError","params":{},"type":"event"}
emit {"method":"weather.changed","params":{}}
send 1 {"id":77,"result":{},"type":"success"}
    < 1 {"id":77,"result":{},"type":"success"}
send 1 <i>no JSON</i>
    < 1 <i>no JSON</i>
send 1 {"a":1}
    < 1 {"a":1}
bytes 1 00ff
    bytes 1 00ff
hold {"method":"session.status","times":3}
> 1 {"id":7,"method":"session.status","params":{}}
    held 3 1 {"id":7,"method":"session.status","params":{}}
send 1 {"id":7,"error":"unknown error","message":"by hand","type":"error"}
    < 1 {"id":7,"error":"unknown error","message":"by hand","type":"error"}
release 3
    < 1 {"id":7,"result":{"message":"ready","ready":true},"type":"success"}
> 1 {"id":8,"method":"session.status","params":{}}
    held 4 1 {"id":8,"method":"session.status","params":{}}
cut 1
    cut 1
release 4
    lost 1
close 1 1000
    no effect: REASON
open 1 /session/00000000-0001-8000-8000-000000000001
    opened 1
send 1 {"id":8,"result":{},"type":"success"}
    < 1 {"id":8,"result":{},"type":"success"}
> 1 {"id":9,"method":"session.status","params":{}}
    held 5 1 {"id":9,"method":"session.status","params":{}}
raw 1 c100
    raw 1 c100
stall 1
    stall 1
resume 1
    resume 1
refuse 2 503
    refuse 2 503
cut 1 10
    cut 1 10
close 1 1011
    close 1 1011
"""

# The rows of its chart, and last whether a command is held at the row.
SCRIPTED_ROWS = """
i1 | page | 0 | names | | |
i2 | open | 0 | open | | |
o1 | begin | 0 | | opened | |
i3 | command | 0 | session.new | | o2 |
o2 | reply | 0 | session.new | | i3 |
i4 | command | 0 | session.subscribe | | o3 |
o3 | reply | 0 | session.subscribe | | i4 |
i5 | page | 0 | hold | | |
i6 | page | 0 | answer | | |
i7 | command | 0 | network.addIntercept | | o5 |
o4 | event | 0 | network.fetchError | | |
o5 | reply | 0 | network.addIntercept | | i7 |
i8 | command | 0 | browsingContext.navigate | | o11 |
o6 | held | 0 | browsingContext.navigate | held 1 | i14 | waits
i9 | command | 0 | session.status | | o7 | waits
o7 | reply | 0 | session.status | | i9 | waits
i10 | command | 0 | browsingContext.navigate | | o13 | waits
o8 | held | 0 | browsingContext.navigate | held 2 | i16 | waits
i11 | page | 0 | unanswer | | | waits
i12 | page | 0 | on browsingContext.navigationStarted | | | waits
i13 | clock | 20 | at 20 | | | waits
i14 | page | 20 | release 1 | | o6 | waits
o9 | event | 20 | browsingContext.navigationStarted | | | waits
o10 | event | 20 | network.beforeRequestSent | | | waits
o11 | reply | 20 | browsingContext.navigate | | i8 | waits
i15 | page | 20 | release 2 | | | waits
o12 | void | 20 | | no effect | | waits
i16 | page | 20 | release 2 | | o8 | waits
o13 | error | 20 | browsingContext.navigate | unknown error | i10 |
i17 | page | 20 | release 2 | | |
o14 | void | 20 | | no effect | |
i18 | page | 20 | emit | | |
o15 | event | 20 | network.fetchError | | |
i19 | page | 20 | emit | | |
i20 | page | 20 | send 1 | | |
o16 | reply | 20 | | stray | |
i21 | page | 20 | send 1 | | |
o17 | other | 20 | | not JSON | |
i22 | page | 20 | send 1 | | |
o18 | other | 20 | no message | | |
i23 | page | 20 | bytes 1 | | |
o19 | other | 20 | binary message | | |
i24 | page | 20 | hold | | |
i25 | command | 20 | session.status | | o21 |
o20 | held | 20 | session.status | held 3 | i27 | waits
i26 | page | 20 | send 1 | | | waits
o21 | error | 20 | session.status | unknown error | i25 | waits
i27 | page | 20 | release 3 | | o20 | waits
o22 | reply | 20 | | stray | |
i28 | command | 20 | session.status | never answered | |
o23 | held | 20 | session.status | held 4 | i30 | waits
i29 | page | 20 | cut 1 | | | waits
o24 | end | 20 | | cut | | waits
i30 | page | 20 | release 4 | | o23 | waits
o25 | stop | 20 | | lost | |
i31 | page | 20 | close 1 | | |
o26 | void | 20 | | no effect | |
i32 | open | 20 | open | | |
o27 | begin | 20 | | opened | |
i33 | page | 20 | send 1 | | |
o28 | reply | 20 | | stray | |
i34 | command | 20 | session.status | never answered | |
o29 | held | 20 | session.status | held 5 | | waits
i35 | page | 20 | raw 1 | | | waits
o30 | other | 20 | bytes without a frame | | | waits
i36 | page | 20 | stall 1 | | | waits
o31 | other | 20 | | stall | | waits
i37 | page | 20 | resume 1 | | | waits
o32 | other | 20 | | resume | | waits
i38 | page | 20 | refuse | | | waits
o33 | other | 20 | | refuse | | waits
i39 | page | 20 | cut 1 | | | waits
o34 | other | 20 | | cut | | waits
i40 | page | 20 | close 1 | | | waits
o35 | end | 20 | | close | | waits
"""

# A conversation, as `bidi check --both` reads it. The last line has no line feed.
TALK = """
> {"id":1,"method":"session.status","params":{}}
< {"type":"success","id":1,"result":{"ready":true}}
> {"id":2,"method":"browsingContext.activate","params":{"context":"c"}}
> {"id":3,"method":"network.addIntercept","params":{}}
< {"type":"event","method":"log.entryAdded","params":{"text":"<b>"}}
< {"type":"error","id":3,"error":"unknown command","message":"m"}
< {"type":"error","id":2,"error":"no such frame","message":"no frame c"}
< {"type":"success","id":1,"result":{}}
> {"id":4
> 7
< {"type":"error","id":null,"error":"invalid argument","message":"m"}
> {"id":5,"method":"session.end","params":{}}
> {"id":5,"method":"session.status","params":{}}
< [1
< {}
< {"id":5,"result":{}}
< {"type":"error","id":5,"error":7}
< {"type":"error","error":"invalid argument","message":"m"}
> 1 {"id":6,"method":"session.status","params":{}}
"""

# The rows of its chart. Its numbers are those of the lines, and there is no moment.
TALK_ROWS = """
i1 | command | | session.status | | o2
o2 | reply | | session.status | | i1
i3 | command | | browsingContext.activate | | o7
i4 | command | | network.addIntercept | | o6
o5 | event | | log.entryAdded | |
o6 | error | | network.addIntercept | unknown command | i4
o7 | error | | browsingContext.activate | no such frame | i3
o8 | reply | | | stray |
i9 | command | | | not JSON never answered |
i10 | command | | no command | | o11
o11 | error | | no command | invalid argument | i10
i12 | command | | session.end | | o16
i13 | command | | session.status | id waits never answered |
o14 | other | | | not JSON |
o15 | other | | no message | |
o16 | other | | session.end | | i12
o17 | error | | | error stray |
o18 | error | | | invalid argument stray |
i19 | command | | | not JSON never answered |
"""

# A text, and whether docs/FORMATS.md takes it as JSON.
TEXTS = [
    ("a number", "1", True), ("a fraction", "1.5", True), ("a large number", "1e308", True), ("too large", "1e400", False),
    ("too many digits", "9" * 310, False), ("a leading zero", "01", False), ("no number", "NaN", False),
    ("infinity", "-Infinity", False), ("blanks around", " \t\r{} ", True), ("a name twice", '{"a":1,"a":2}', True),
    ("127 levels", "[" * 127 + "]" * 127, True), ("128 levels", "[" * 128 + "]" * 128, False),
    ("brackets in a string", '"%s"' % ("[" * 200), True), ("many levels", "[" * 100000, False),
    ("a byte order mark", "\ufeff1", False), ("a lone surrogate", r'"\ud800"', False), ("a pair", r'"\ud83d\ude00"', True),
    ("a raw control character", '"\x01"', False), ("nothing", "", False), ("no string", "{a:1}", False)]

# What is refused: the record, or nothing if there is no file, and how the message begins and what it says to do.
REFUSED = [
    ("no file", None, "cannot read {record}: No such file or directory", ""),
    ("a bad line", "open 1 /session\nhello\nat 1\n", "{record}:2: not a line of a play: ", "docs/FORMATS.md"),
    ("an empty line", "at 1\n\n", "{record}:2: not a line of a play: ", "remove"),
    ("a line without an end", "at 1\nat 2\nat 3", "{record}:3: not a line of a play: ", "line feed"),
    ("a carriage return", "at 1\r\n", "{record}:1: not a line of a play: ", "carriage return"),
    ("a byte of no character", "log c info \udcff\n", "{record}:1: not a line of a play: ", "UTF-8"),
    ("a byte order mark", "\ufeffat 1\n", "{record}:1: not a line of a play: ", "byte order mark"),
    ("a message", '{{"id":1,"method":"session.status","params":{{}}}}\n', "{record}:1: not a line of a play: ", "docs/CHECKING.md"),
    ("the output of a play", "opened 1\n", "{record}:1: not a line of a play: ", "record"),
    ("a message without its connection", "open 1 /session\n> {{}}\n", "{record}:2: not a line of a play: ", "> 1 "),
    ("a line of a page that no record has", "at 1\nreset\n", "{record}:2: not a line of a play: ", "remove"),
    ("a line without a mark", "> {{}}\n< {{}}\nat 1\n", "{record}:3: not a line of a conversation: ", "> "),
    ("an empty line of a conversation", "< {{}}\n\n> {{}}\n", "{record}:2: not a line of a conversation: ", "remove")]

# With -S, Python starts without packages of the site, which is sooner.
FAKE = """#!%s -S
import re, sys
TABLE = %r
if sys.argv[1:] != ["play", "--scripted"]:
    sys.exit(print("error: unexpected argument", file=sys.stderr) or 2)
lines, opened = sys.stdin.buffer.read().decode(errors="replace").split("\\n"), set()
for number, line in enumerate(lines, 1):
    if line in TABLE:
        answers = TABLE[line].pop(0)
        print(*answers, sep="", end="")
        opened |= {answer.split()[1] for answer in answers if answer.startswith("opened ")}
        opened -= {answer.split()[1] for answer in [line, *answers] if answer.startswith(("drop ", "close ", "cut "))}
    elif re.fullmatch("> [0-9]+ {}", line) and line.split()[1] not in opened:
        print("lost", line.split()[1])
    elif number < len(lines) and re.fullmatch("at [0-9]+", line):
        pass
    elif number < len(lines) or line:
        sys.stdout.flush()
        sys.exit(print(f"bidi: line {number} is no play line", file=sys.stderr) or 2)
"""


class Rows(HTMLParser):
    """The rows of a page, with the texts of their parts."""

    def __init__(self, page):
        super().__init__()
        self.rows, self.scripts, self.row, self.part, self.page = {}, 0, None, None, page
        self.feed(page)

    def handle_starttag(self, tag, attributes):
        given = dict(attributes)
        self.scripts += tag == "script"
        if "id" in given and given.get("class", "").startswith("row "):
            self.row = {"class": given["class"].split(), "n": [], "id": [], "b": [], "mark": [], "a": [], "text": ""}
            self.rows[given["id"]] = self.row
        elif self.row is not None:
            self.part = given["class"] if given.get("class") in ("n", "id") else tag
            self.row["a"] += [given["href"][1:]] if tag == "a" else []

    def handle_endtag(self, tag):
        self.part = None

    def handle_data(self, data):
        if self.row is not None:
            self.row["text"] += data
            if self.part in ("n", "id", "b", "mark"):
                self.row[self.part].append(data)


def fields(table):
    """The fields of each row of a table."""
    return [[field.strip() for field in line.split("|")] for line in table.strip().split("\n")]


class LookTest(unittest.TestCase):
    """Runs look.py over plays in a folder of their own."""

    @classmethod
    def setUpClass(cls):
        folder = tempfile.TemporaryDirectory()
        cls.addClassCleanup(folder.cleanup)
        cls.folder, cls.pages = Path(folder.name), {}

    def program(self, name="bidi", text=PLAY):
        """The program that BIDI names, or else one that writes the lines of this text."""
        table, last = {}, None
        for line in text.strip().split("\n"):
            if line.startswith("    "):
                table[last][-1].append(line.strip() + "\n")
            else:
                last = line
                table.setdefault(line, []).append([])
        fake = self.folder / name
        fake.write_text(FAKE % (sys.executable, table))
        fake.chmod(0o755)
        return os.environ.get("BIDI") or str(fake)

    def look(self, *arguments, text="", **environment):
        """Runs look.py: its status, its page and its message."""
        environment = {"PATH": os.environ["PATH"], **environment}
        done = subprocess.run([sys.executable, "-S", LOOK, *arguments], input=text.encode(), capture_output=True, env=environment)
        return done.returncode, done.stdout.decode(), done.stderr.decode()

    def played(self, name, text):
        """The page of a play with its output."""
        if name not in self.pages:
            status, page, said = self.look("-", text="\n".join(lines_in(text)) + "\n", BIDI=self.program(name, text))
            self.assertEqual((status, said), (0, ""))
            self.pages[name] = Rows(page)
        return self.pages[name]

    def page(self):
        """The page of the play."""
        return self.played("play", PLAY)

    def scripted(self):
        """The page of the record with lines of a scripted play."""
        return self.played("scripted", SCRIPTED)

    def talk(self):
        """The page of the conversation, for which no program is run."""
        if "talk" not in self.pages:
            status, page, said = self.look("-", text=TALK.strip(), PATH="/nowhere")
            self.assertEqual((status, said), (0, ""))
            self.pages["talk"] = Rows(page)
        return self.pages["talk"]

    def check(self, rows, table):
        """Whether the rows of a page are those of a table."""
        expected = fields(table)
        self.assertEqual([row[0] for row in expected], list(rows))
        for name, kind, moment, label, mark, pair, *waits in expected:
            with self.subTest(name):
                row = rows[name]
                self.assertIn(kind, row["class"])
                self.assertEqual(row["n"], [part for part in (name[1:], moment) if part])
                found = [" ".join(row[part]) for part in ("b", "mark", "a")]
                self.assertEqual(found, [label, mark, pair])
                self.assertEqual("waits" in row["class"], waits == ["waits"])

    def test_rows_are_those_of_the_play(self):
        self.check(self.page().rows, ROWS)

    def test_rows_are_those_of_a_scripted_play(self):
        self.check(self.scripted().rows, SCRIPTED_ROWS)

    def test_rows_are_those_of_a_conversation(self):
        self.check(self.talk().rows, TALK_ROWS)

    def test_every_command_is_joined_to_its_reply_or_marked(self):
        for rows in (self.page().rows, self.scripted().rows):
            for name, row in rows.items():
                if "command" in row["class"] and "never answered" not in row["mark"]:
                    with self.subTest(name):
                        reply = rows[row["a"][0]]
                        self.assertEqual((reply["a"], reply["id"]), ([name], row["id"]))

    def test_a_bar_runs_from_a_command_or_its_release_to_the_reply_or_to_where_it_is_held(self):
        for rows, bars in ((self.page().rows, ["i2 o2"]), (self.scripted().rows, ["i7 o4 o5", "i8 o6", "i14 o9 o10 o11", "i16 o13"])):
            for first, *middle, last in map(str.split, bars):
                for names, part in (([first], ["first"]), (middle, []), ([last], ["last"])):
                    for name in names:
                        with self.subTest(name):
                            self.assertIn("busy", rows[name]["class"])
                            self.assertEqual([word for word in rows[name]["class"] if word in ("first", "last")], part)
        for name in ("i15", "i20", "i26", "o21", "i27", "o22", "i30"):
            self.assertNotIn("busy", self.scripted().rows[name]["class"])

    def test_texts_of_a_play_are_escaped(self):
        page = self.page()
        self.assertEqual(page.scripts, 1)
        self.assertIn("/<b>other</b>", page.rows["i9"]["text"])
        self.assertIn("<script>alert(1)</script>", page.rows["i14"]["text"])
        self.assertIn("<script>alert(1)</script>", page.rows["o13"]["text"])
        self.assertIn("<i>no JSON</i>", self.scripted().rows["o17"]["text"])
        self.assertIn('"<b>"', self.talk().rows["o5"]["text"])

    def test_all_of_a_text_is_below_its_row(self):
        for rows, lines in ((self.page().rows, lines_in(PLAY)), (self.scripted().rows, lines_in(SCRIPTED))):
            for name, line in [(f"i{number}", line) for number, line in enumerate(lines, 1) if line.startswith(("> ", "send "))]:
                with self.subTest(line):
                    self.assertIn(line.split(" ", 2)[2], re.sub(r"\n *", "", rows[name]["text"]))
        for number, line in enumerate(TALK.strip().split("\n"), 1):
            with self.subTest(line):
                self.assertIn(line[2:], self.talk().rows["io"[line[0] == "<"] + str(number)]["text"])

    def test_rows_and_events_of_a_test_are_shown(self):
        rows = self.scripted().rows
        for name, text in [("i1", "*"), ("i5", '{"method":"browsingContext.navigate"}'), ("i11", "browsingContext.navigate"),
                           ("i12", '[{"method":"network.beforeRequestSent","params":{"navigation":"$navigation"}}]'),
                           ("i16", '{"error":"unknown error","message":"no network"}'), ("o13", "no network"), ("i23", "00ff"),
                           ("o19", "00ff"), ("o30", "c100"), ("o33", "2 503"), ("i40", "1011"), ("o35", "1011")]:
            with self.subTest(name):
                self.assertIn(text, rows[name]["text"])

    def test_counts_are_those_of_the_rows(self):
        for page, counts in [(self.page().page, ["messages in <b>11</b>", "events <b>1</b>", "denied <b>2</b>"]),
                             (self.scripted().page, ["held <b>5</b>", "cut <b>2</b>", "close <b>1</b>", "stray <b>3</b>",
                                                     "no effect <b>3</b>", "never answered <b>2</b>"]),
                             (self.talk().page, ["messages in <b>8</b>", "messages out <b>11</b>", "stray <b>3</b>"])]:
            for count in counts:
                with self.subTest(count):
                    self.assertIn(count, page)
        for count in ("held", "cut", "stray"):
            self.assertNotIn(f"{count} <b>", self.page().page)

    def test_a_line_of_a_conversation_that_is_not_utf_8_is_marked(self):
        lines = look.talk(b'> {"id":1,"method":"a\xff"}\n< {"type":"success","id":1,"result":{}}\r\n', "talk")
        rows = look.Conversation(lines).rows
        self.assertEqual([row.marks for row in rows], [["not UTF-8"], []])
        self.assertEqual((rows[0].pair, rows[1].kind), (rows[1], "reply"))

    def test_the_first_line_tells_a_conversation_from_a_play(self):
        for record, is_talk in [(b"> {}\n", True), (b"< {}\n", True), (b"> 1\n", True), (b"< 1 {}\n", True), (b"> 1 {}\n", False),
                                (b"open 1 /session\n> {}\n", False), (b"names *\n", False), (b"", False), (b">{}\n", False)]:
            with self.subTest(record):
                self.assertEqual(bool(look.TALK.match(record)), is_talk)

    def test_only_a_play_has_a_page_and_a_clock(self):
        for page, has_page in ((self.page().page, True), (self.scripted().page, True), (self.talk().page, False)):
            self.assertEqual(">page</span>" in page, has_page)
            self.assertEqual(">moment</span>" in page, has_page)

    def test_json_is_what_the_formats_say(self):
        for name, text, is_json in TEXTS:
            with self.subTest(name):
                try:
                    look.read_json(text)
                    self.assertTrue(is_json)
                except ValueError:
                    self.assertFalse(is_json)

    def test_layout_keeps_each_token(self):
        text = '{"a":[1.0,1e2,-0,{"a":{},"a":[]}],"long":["%s",%s],"s":"{\\"[ ,"}' % ("x" * 60, ",".join(["[9]"] * 40))
        laid = look.layout(text)
        self.assertEqual(re.sub(r"\n *", "", laid), text)
        self.assertLessEqual(max(map(len, laid.split("\n"))), look.ROOM + 1)

    def test_bad_input_is_refused_with_its_line_and_what_to_do(self):
        program = self.program()
        for name, text, message, advice in REFUSED:
            with self.subTest(name):
                record = self.folder / f"{name}.play"
                if text is not None:
                    record.write_bytes(text.format().encode("utf-8", "surrogateescape"))
                said = io.StringIO()
                with contextlib.redirect_stderr(said):
                    self.assertEqual(look.main(["--bidi", program, str(record)]), 2)
                self.assertRegex(said.getvalue(), r"\Alook: [^\n]*\n\Z")
                self.assertIn(f"look: {message.format(record=record)}", said.getvalue())
                self.assertIn(advice, said.getvalue().partition(": not a line of ")[2] or said.getvalue())

    def test_a_line_of_standard_input_is_named(self):
        status, page, said = self.look("-", text="at 1\nhello\n", BIDI=self.program())
        self.assertEqual((status, page), (2, ""))
        self.assertTrue(said.startswith("look: standard input:2: not a line of a play: "), said)

    def test_a_program_that_is_not_there_is_refused(self):
        for name, arguments, environment, program in [
                ("by --bidi", ["--bidi", "/nowhere/bidi"], {}, "/nowhere/bidi"),
                ("by BIDI", [], {"BIDI": "/nowhere/bidi"}, "/nowhere/bidi"),
                ("on the path", [], {"BIDI": "", "PATH": "/nowhere"}, "bidi")]:
            with self.subTest(name):
                status, page, said = self.look(*arguments, "-", **environment)
                self.assertEqual((status, page), (2, ""))
                self.assertEqual(said, f"look: no program {program}: name it with --bidi or with the environment variable BIDI\n")

    def test_a_program_that_plays_no_scripts_is_refused(self):
        program = self.folder / "old"
        program.write_text("#!/bin/sh\nprintf 'error: no --scripted\\n\\nFor more, try --help\\n' >&2\nexit 2\n")
        program.chmod(0o755)
        status, page, said = self.look("--bidi", str(program), "-", text="at 1\n")
        self.assertEqual((status, page), (2, ""))
        self.assertTrue(said.startswith(f"look: standard input: {program} play --scripted ended with status 2: error: no --scripted: "))
        self.assertIn("--bidi", said)

    def test_a_program_that_is_not_bidi_is_refused(self):
        status, page, said = self.look("--bidi", sys.executable, "-", text="at 1\n")
        self.assertEqual((status, page), (2, ""))
        self.assertRegex(said, r"\Alook: .*--bidi.*\n\Z")


def lines_in(text):
    """The lines of a play, without its output."""
    return [line for line in text.strip().split("\n") if not line.startswith("    ")]


if __name__ == "__main__":
    unittest.main()
