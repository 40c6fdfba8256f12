#!/usr/bin/env python3
"""Refuses each allocation of a run in turn, fails each read and write, and cuts each short: refusals.py [--short]

Two programs are run, as `rt ci` leaves them: crates/trials/out/trials with the word `refusals`, which makes each call of a row once
more where it finds no memory, and crates/bidi/out/bidi. `--trials FILE` and `--bidi FILE` name others. tools/faults.c is compiled by `cc` and
loaded in front of the C library; it counts the allocations, reads and writes of a run, and lets one go wrong.

Of a row of `trials refusals`: whichever allocation is refused, the status is 0 and what is written stays the same. Of `bidi`: where an
allocation is refused, or a read or a write fails, the run ends with status 3, its line on standard error and a beginning of the
output, or all is as if nothing had happened; where a read or a write is cut short, all is as if nothing had happened. Of
`bidi serve`, with two clients: where an allocation is refused, one client is cut off or answered by 400, and the other served,
or the run ends with status 3, its line and a beginning of the replies.
`--short`, which `.ci/run` runs behind `rt ci`, tries a row of each program. `--memory` runs `bidi` within less and less of an
address space in place of all that, over inputs that take much memory or much stack: a run ends with its whole output, or with
status 3, its line and a beginning of the output, and by no signal; where the system cannot load a program at all, its loader
says so with status 127.
A line of a table is written for each row, one that begins with `WRONG:` for what comes out otherwise, and a last line with the
number of runs and of these. Where there are such, or no C compiler, or a program is not built, the status is 1.
"""
import resource
import shutil
import socket
import subprocess
import sys
import tempfile
import time
from collections import Counter, namedtuple
from concurrent.futures import ThreadPoolExecutor
from pathlib import Path

import options

ROOT = Path(__file__).resolve().parent.parent
KINDS = {"s": "00000000-0001", "c": "00000000-0002", "r": "00000000-0003", "u": "00000001-0005", "h": "00000000-0006",
         "k": "00000000-0008"}
BEGUN = """open 1 /session
> 1 {"id":0,"method":"session.new","params":{"capabilities":{}}}
"""


def ids(text):
    """The text with whole ids: `@c1` is that of the first context, so `@s1`, `@r1`, `@u1`, `@h1` and `@k1`."""
    first, *parts = text.split("@")
    for part in parts:
        digits = part[1:1 + len(part[1:]) - len(part[1:].lstrip("0123456789"))]
        first += f"{KINDS[part[0]]}-8000-8000-{int(digits):012x}{part[1 + len(digits):]}"
    return first


def subscribe(number, events):
    return '> 1 {"id":%d,"method":"session.subscribe","params":{"events":["%s"]}}\n' % (number, '","'.join(events))


NAVIGATED = BEGUN + subscribe(1, ["browsingContext", "script"]) + ids("""frame @c1 about:blank
at 5
> 1 {"id":2,"method":"browsingContext.navigate","params":{"context":"@c1","url":"http://a.test","wait":"complete"}}
> 1 {"id":3,"method":"browsingContext.traverseHistory","params":{"context":"@c1","delta":-2}}
""")
PAIRED = """open 1 /session
open 2 /session
send 1 session.status {}
send 2 session.status {}
up 1
up 2
down 1
cut 2
"""
# Plays, of `bidi play` and of a remote end.
PLAYS = {
    "a subscription": BEGUN + subscribe(1, ["browsingContext"]),
    "a context that is created": BEGUN + subscribe(1, ["browsingContext"]) + subscribe(2, ["browsingContext"])
    + '> 1 {"id":3,"method":"browsingContext.create","params":{"type":"tab"}}\n',
    "an entry of the log that waits": BEGUN + ids("at 7\nlog @c1 info hi\n") + subscribe(1, ["log.entryAdded"])
    + subscribe(2, ["log.entryAdded"]),
    "a navigation": NAVIGATED,
    "a value that is held": BEGUN + ids("""value {"text":"o","returns":{"type":"object","value":[["a",{"type":"number","value":1}]]}}
> 1 {"id":1,"method":"script.evaluate","params":{"awaitPromise":false,"expression":"o","resultOwnership":"root","target":{"context":"@c1"}}}
"""),
    "user contexts": BEGUN + ids("""> 1 {"id":1,"method":"browser.createUserContext","params":{}}
> 1 {"id":2,"method":"session.subscribe","params":{"events":["browsingContext"],"userContexts":["@k1","default"]}}
> 1 {"id":3,"method":"browsingContext.create","params":{"type":"tab","userContext":"@k1"}}
frame @c2 about:blank
> 1 {"id":4,"method":"browser.getUserContexts","params":{}}
> 1 {"id":5,"method":"browser.removeUserContext","params":{"userContext":"@k1"}}
"""),
    "the end of a session": BEGUN + ids("""open 2 /session/@s1
> 2 {"id":1,"method":"session.end","params":{}}
> 1 {}
"""),
}
BROWSER = {
    "a context that is created": 'browsingContext.create {"type":"tab"}\nbrowsingContext.close {"context":"@c2"}\n',
    "an entry of the log": "at 7\nlog @c1 hi\n",
    "a navigation": """frame @c1 about:blank
at 5
browsingContext.navigate {"context":"@c1","url":"http://a.test","wait":"complete"}
browsingContext.reload {"context":"@c1"}
browsingContext.traverseHistory {"context":"@c1","delta":-2}
browsingContext.traverseHistory {"context":"@c1","delta":-1}
frame @c1 about:blank
unframe @c3
""",
    "a value that is held": """value {"text":"o","returns":{"type":"object","value":[["a",{"type":"number","value":1}]]}}
value {"text":"f","argument":0}
script.evaluate {"awaitPromise":false,"expression":"o","resultOwnership":"root","target":{"context":"@c1"}}
script.callFunction {"arguments":[{"handle":"@h1"}],"awaitPromise":false,"functionDeclaration":"f","target":{"context":"@c1"}}
script.disown {"handles":["@h1"],"target":{"context":"@c1"}}
script.getRealms {}
""",
    "user contexts": """browser.createUserContext {}
browser.createUserContext {}
browser.getUserContexts {}
browsingContext.create {"type":"tab","userContext":"@k2"}
frame @c2 about:blank
browser.removeUserContext {"userContext":"@k2"}
browser.createUserContext {}
""",
    "a tree of two": 'frame @c1 about:blank\nbrowsingContext.getTree {}\nbrowsingContext.getTree {"maxDepth":0,"root":"@c2"}\n',
}
LOCAL = """send session.status {}
send session.end {}
send browsingContext.getTree {"maxDepth":0}
take {"id":1,"result":{"message":"ready","ready":true},"type":"success"}
take {"error":"invalid session id","id":2,"message":"invalid session id","type":"error"}
take {"method":"script.realmDestroyed","params":{"realm":"r"},"type":"event"}
take {"id":9,"result":{},"type":"success"}
take {}
take [1
lose
lose
"""
# As many contexts as may be, and the tree of the last, which has nothing below it.
FULL = '1023 browsingContext.create {"type":"tab"}\nbrowsingContext.getTree {"maxDepth":0,"root":"@c1024"}\n'
TEXTS = "examples/browsers.texts"
# Commands that are refused, the last of them without its line feed.
MISTAKEN = """{"id":7,"method":"browsingContext.navigate","params":{"context":5,"url":"u"}}
{"id":8,"method":"script.disown","params":{"handles":["a",{}],"target":{}}}
[1"""


def nested(levels):
    """A value of so many arrays within each other."""
    return '{"type":"array","value":[' * (levels - 1) + '{"type":"array","value":[]}' + "]}" * (levels - 1)


CALL = """> 1 {"id":2,"method":"script.callFunction","params":{"arguments":[%s],"awaitPromise":false,"functionDeclaration":"f",\
"resultOwnership":"root","target":{"context":"@c1"}}}
"""
SHOWN = """{"method":"log.entryAdded","params":{"args":[%s],"level":"info","method":"info","source":{"realm":"r"},"text":"t",\
"timestamp":0,"type":"console"},"type":"event"}
""" % nested(30)
# What takes much memory or much stack: the program, and what it is given.
HEAVY = {
    "1,024 contexts": (["play"], BEGUN + subscribe(1, ["browsingContext", "script"])
                       + "".join('> 1 {"id":%d,"method":"browsingContext.create","params":{"type":"tab"}}\n' % n for n in range(2, 1025))),
    "20 rows of a megabyte": (["play"], BEGUN + "".join('value {"text":"%d","returns":{"type":"string","value":"%s"}}\n'
                                                        % (n, "x" * 1000000) for n in range(20))),
    "values of 60 levels": (["play"], BEGUN + ids('value {"text":"f","argument":0}\n' + CALL % nested(30)
                                                  + "".join("frame @c%d about:blank\n" % n for n in range(1, 16)))
                            + '> 1 {"id":3,"method":"browsingContext.getTree","params":{}}\n'),
    "600 contexts over a link": (["pair"], 'open 1 /session\nsend 1 session.new {"capabilities":{}}\nup 1\n'
                                 + 'send 1 browsingContext.create {"type":"tab"}\nup 1\ndown 1\n' * 600),
    "texts of a megabyte": (["show", "--from", "local"],
                            '{"id":1,"method":"session.status","params":{"x":"%s"}}\n' % ("y" * 1000000) * 3),
    "values of 60 levels, shown": (["show", "--from", "remote"], SHOWN * 20),
    "nested texts": (["check", "--from", "remote"], '{"type":"success","id":1,"result":{"x":%s}}\n' % ("[" * 60 + "]" * 60) * 3),
    "values of 60 levels, refused": (["check", "--from", "remote", "--why"], SHOWN.replace('"value":[]', '"value":5') * 20),
    "1,024 contexts, reduced": (["reduce", "--session", "1"], BEGUN
                                + '> 1 {"id":1,"method":"browsingContext.create","params":{"type":"tab"}}\n' * 1023),
}

Run = namedtuple("Run", "status output told moves allocations reads_and_writes long_moves")
Fault = namedtuple("Fault", "name count statuses")
REFUSED = Fault("REFUSE_ALLOCATION", "allocations", {b"bidi: out of memory\n"})
FAILED = Fault("FAIL_MOVE", "reads_and_writes", {b"bidi: input cannot be read\n", b"bidi: output cannot be written\n"})
CUT = Fault("SHORT_MOVE", "long_moves", set())
OF_CALLS = "| calls | allocations, each refused once | a call was made again | changes that were applied |\n|---|---|---|---|"
OF_PROGRAMS = "| program | each allocation refused | each read and write failed | each read and write cut short |\n|---|---|---|---|"
OF_SERVING = "| program | each allocation refused |\n|---|---|"
OF_MEMORY = "| program | runs | the most KB that were too few |\n|---|---|---|"


def found(program):
    """The path of a program that is built."""
    if not Path(program).is_file():
        sys.exit(f"refusals: {program} is not built; `rt ci` does it")
    return program


def compiled(folder):
    """What is loaded in front of the C library."""
    compiler = shutil.which("cc") or shutil.which("gcc")
    if not compiler:
        sys.exit("refusals: there is no C compiler, neither `cc` nor `gcc`, for tools/faults.c")
    faults = Path(folder) / "faults.so"
    subprocess.run([compiler, "-O1", "-shared", "-fPIC", "-o", faults, ROOT / "tools/faults.c"], check=True)
    return faults


class Bench:
    """The programs, and what is loaded in front of the C library."""

    def __init__(self, folder, trials, bidi):
        self.folder, self.trials, self.bidi = Path(folder), found(trials), found(bidi)
        self.faults = compiled(folder)
        self.count = self.problems = 0

    def run(self, words, text, fault=None, number=0):
        """One run, with the fault of that number."""
        trace = self.folder / f"trace-{fault and fault.name}-{number}"
        environment = {"LD_PRELOAD": str(self.faults), "TRACE_MOVES": str(trace)}
        if fault:
            environment[fault.name] = str(number)
        ended = subprocess.run(words, input=text.encode(), env=environment, capture_output=True, timeout=60)
        lines = [line.split() for line in trace.read_text().splitlines()]
        trace.unlink()
        counts = [int(one) for one in lines[-1][1:]] if lines and lines[-1][0] == "end" else [0, 0, 0]
        moves = [(kind, *map(int, rest)) for kind, *rest in lines if kind != "end"]
        return Run(ended.returncode, ended.stdout, ended.stderr, moves, *counts)

    def runs(self, words, text, fault, numbers):
        with ThreadPoolExecutor(2) as pool:
            for number, run in zip(numbers, pool.map(lambda number: self.run(words, text, fault, number), numbers)):
                self.count += 1
                yield number, run

    def wrong(self, *words):
        self.problems += 1
        print("WRONG:", *words)

    def calls(self, name, what, text):
        """A row of the calls: whichever allocation is refused, what is written stays the same."""
        text = ids(what + "\n" + text)
        whole = self.run([self.trials, "refusals"], text)
        if whole.status or not whole.allocations:
            self.wrong(name, "ends with status", whole.status, "after", whole.allocations, "allocations")
        applied = self.applied(name, whole)
        again = 0
        for number, run in self.runs([self.trials, "refusals"], text, REFUSED, range(1, whole.allocations + 1)):
            if (run.status, run.output) != (0, whole.output):
                self.wrong(name, "with allocation", number, "refused: status", run.status, run.output)
            again += run.allocations > whole.allocations
        print(f"| `{what}`: {name} | {whole.allocations} | {again} | {applied} |", flush=True)
        return whole

    def applied(self, name, whole):
        """How many changes were applied. Between the two lines round each no allocation was asked for."""
        written = [move for move in whole.moves if move[0] == "w"]
        place, count = 0, 0
        for before, after in zip(written, written[1:]):
            piece = whole.output[place:place + before[2]]
            place += before[2]
            if piece == b"apply\n":
                count += 1
                if before[3] != after[3]:
                    self.wrong(name, "apply asks for memory")
        return f"{count}, with no allocation" if count else ""

    def program(self, name, words, text, faults=(REFUSED, FAILED, CUT)):
        """A run of the program: a fault ends it, with its status, its line and a beginning of the output."""
        words = [self.bidi, *words]
        whole = self.run(words, text)
        if whole.status not in (0, 1, 2) or not whole.allocations:
            self.wrong(name, "ends with status", whole.status, "after", whole.allocations, "allocations")
        cells = []
        for fault in faults:
            ends = Counter()
            for number, run in self.runs(words, text, fault, range(1, getattr(whole, fault.count) + 1)):
                if (run.status, run.output, run.told) == (whole.status, whole.output, whole.told):
                    ends["nothing lost"] += 1
                elif run.status == 3 and run.told in fault.statuses and whole.output.startswith(run.output):
                    ends["told"] += 1
                elif fault is FAILED and run.status == whole.status and run.output == whole.output:
                    ends["a fault that could not be told"] += 1
                else:
                    self.wrong(name, fault.name, number, "status", run.status, run.told, run.output)
            if fault is REFUSED and not ends["told"]:
                self.wrong(name, "tells no refused allocation")
            cells.append(", ".join(f"{count} {end}" for end, count in sorted(ends.items(), reverse=True)))
        print(f"| `bidi {' '.join(words[1:])}`: {name} | " + " | ".join(cells) + " |", flush=True)


def full(bench):
    """A plan asks for few allocations, however many contexts are live: those of the last line, behind the last change."""
    text = ids("browser\n" + FULL)
    whole = bench.run([bench.trials, "refusals"], text)
    place, marks = 0, {}
    for _, _, count, asked in (move for move in whole.moves if move[0] == "w"):
        piece = whole.output[place:place + count]
        place += count
        if piece == b"result\n":
            first, behind = marks.get(b"applied\n", 0), asked
        marks[piece] = asked
    again = 0
    for number, run in bench.runs([bench.trials, "refusals"], text, REFUSED, range(first + 1, behind + 1)):
        if (run.status, run.output) != (0, whole.output):
            bench.wrong("a full browser, with allocation", number, "refused: status", run.status)
        again += run.allocations > whole.allocations
    print(f"| `browser`: the tree of the last of 1,024 contexts, that plan alone | {behind - first} | {again} | |", flush=True)


# What a client of `serve` sends, and what it may be answered.
HEAD = b"""GET /session HTTP/1.1\r
Host: 127.0.0.1\r
Upgrade: websocket\r
Connection: Upgrade\r
Sec-WebSocket-Key: dGhlIHNhbXBsZSBub25jZQ==\r
Sec-WebSocket-Version: 13\r
\r
"""
BAD_REQUEST = b"HTTP/1.1 400 Bad Request\r\nConnection: close\r\nContent-Length: 0\r\n\r\n"
CLOSE = b"\x88\x02\x03\xe8"


def status_frame(number):
    """A frame with a command, whose mask changes nothing."""
    text = b'{"id":%d,"method":"session.status","params":{}}' % number
    return bytes([0x81, 0x80 | len(text), 0, 0, 0, 0]) + text


def talk(port, serving):
    """What a client reads that opens a connection, asks for three statuses and waits for the end."""
    read = b""
    with socket.socket() as client:
        while client.connect_ex(("127.0.0.1", port)):
            if serving.poll() is not None:
                return read
            time.sleep(0.001)
        try:
            client.sendall(HEAD)
            while not read.endswith(b"\r\n\r\n") and (piece := client.recv(4096)):
                read += piece
            client.sendall(b"".join(map(status_frame, range(1, 4))))
            while piece := client.recv(4096):
                read += piece
        except ConnectionError:
            pass
    return read


def serve_two(bench, number):
    """Two clients of `serve`, one after another, where the allocation of that number is refused."""
    with socket.socket() as free:
        free.bind(("127.0.0.1", 0))
        port = free.getsockname()[1]
    trace = bench.folder / "trace-serve"
    environment = {"LD_PRELOAD": str(bench.faults), "TRACE_MOVES": str(trace), REFUSED.name: str(number)}
    words = [bench.bidi, "serve", "--port", str(port), "--connections", "2", "--messages", "3"]
    bench.count += 1
    with subprocess.Popen(words, env=environment, stderr=subprocess.PIPE) as serving:
        reads = [talk(port, serving), talk(port, serving)]
        told = serving.stderr.read()
    return serving.returncode, told, reads, int(trace.read_text().split()[-3])


def served(bench):
    """Whichever allocation is refused, one connection alone is lost, or the run ends and tells it."""
    _, _, (whole, _), allocations = serve_two(bench, 0)
    ends = Counter()
    for number in range(1, allocations + 1):
        status, told, reads, _ = serve_two(bench, number)
        lost = [read for read in reads if read != whole]
        is_front = all(whole.startswith(read.removesuffix(CLOSE)) for read in lost)
        if status == 3 and told in REFUSED.statuses and is_front:
            ends["told"] += 1
        elif (status, lost) == (0, []):
            ends["nothing lost"] += 1
        elif (status, lost) == (0, [BAD_REQUEST]):
            ends["a connection answered by 400, and the other served"] += 1
        elif status == 0 and len(lost) == 1 and is_front:
            ends["a connection cut off, and the other served"] += 1
        else:
            bench.wrong("serve, with allocation", number, "refused: status", status, told, lost)
    print(f"| `bidi serve`: two connections | {', '.join(f'{count} {end}' for end, count in sorted(ends.items(), reverse=True))} |", flush=True)


def within(bench, words, text, limit):
    """A run within an address space of so many KB."""
    set_limit = None if limit is None else lambda: resource.setrlimit(resource.RLIMIT_AS, (limit * 1024, limit * 1024))
    bench.count += 1
    ended = subprocess.run(words, input=text.encode(), capture_output=True, preexec_fn=set_limit)
    return ended.returncode, ended.stdout, ended.stderr


def limited(bench, name, words, text):
    """Runs of the program, in steps of 4 KB up to 5 MB and of 64 KB behind, until thirty in turn are whole."""
    words = [bench.bidi, *words]
    whole = within(bench, words, text, None)
    ends, enough, limit = Counter(), 0, 4096
    while enough < 30:
        status, output, told = within(bench, words, text, limit)
        enough = enough + 1 if (status, output, told) == whole else 0
        if enough:
            ends["whole"] += 1
        elif status == 3 and told in REFUSED.statuses and whole[1].startswith(output):
            ends["told"] += 1
            least = limit
        elif status == 127 and not output:
            ends["not loaded"] += 1
        else:
            bench.wrong(name, "within", limit, "KB: status", status, told)
        limit += 4 if limit < 5120 else 64
    counts = ", ".join(f"{count} {end}" for end, count in sorted(ends.items()))
    print(f"| `bidi {' '.join(words[1:])}`: {name} | {counts} | {least} |", flush=True)


def short(bench):
    """A row of each program."""
    print(OF_CALLS)
    bench.calls("a navigation", "browser", BROWSER["a navigation"])
    print("\n" + OF_PROGRAMS)
    bench.program("a navigation", ["play"], PLAYS["a navigation"])


def within_memory(bench):
    """What takes much memory or much stack, within less and less of an address space."""
    print(OF_MEMORY)
    for name, (given, text) in HEAVY.items():
        limited(bench, name, given, text)


def all_rows(bench):
    print(OF_CALLS)
    for name, text in PLAYS.items():
        whole = bench.calls(name, "remote", text)
        if whole.output != bench.run([bench.bidi, "play"], text).output:
            bench.wrong(name, "is played otherwise by bidi")
    for name, text in BROWSER.items():
        bench.calls(name, "browser", text)
    full(bench)
    bench.calls("each meaning of a text", "local", LOCAL)
    bench.calls("two takes and a send", "link", "take\ntake\nsend {}\n")
    whole = bench.calls("two links, one of them cut", "pair", PAIRED)
    if whole.output != bench.run([bench.bidi, "pair"], PAIRED).output:
        bench.wrong("a schedule is played otherwise by bidi")
    print("\n" + OF_PROGRAMS)
    for name, text in PLAYS.items():
        bench.program(name, ["play"], text)
    bench.program("two links, one of them cut", ["pair"], PAIRED)
    bench.program("both ends", ["pair"], (ROOT / "examples/both_ends.pair").read_text())
    texts = (ROOT / TEXTS).read_text()
    commands = (ROOT / "examples/clients/commands.texts").read_text()
    for command in "show", "check":
        bench.program("what browsers sent", [command, "--from", "remote"], texts)
        bench.program("what a client sent", [command, "--from", "local"], commands)
    bench.program("what browsers sent", ["check", "--from", "remote", "--why"], texts)
    bench.program("what a client sent", ["check", "--from", "local", "--why", "--json"], commands + MISTAKEN)
    sent = "".join(f"> {line}\n" for line in (commands + MISTAKEN).splitlines())
    both = sent + "".join(f"< {line}\n" for line in texts.splitlines())
    bench.program("a conversation", ["check", "--both"], both)
    bench.program("a conversation", ["check", "--both", "--why", "--json"], both)
    bench.program("two tools", ["reduce", "--session", "1"], (ROOT / "examples/two_tools.play").read_text())
    bench.program("help", ["--help"], "")
    bench.program("a mistake", ["ploy"], "")
    print("\n" + OF_SERVING)
    served(bench)


def main():
    parser = options.parser(__doc__)
    mode = parser.add_mutually_exclusive_group()
    mode.add_argument("--short", dest="rows", action="store_const", const=short)
    mode.add_argument("--memory", dest="rows", action="store_const", const=within_memory)
    parser.add_argument("--trials", metavar="FILE", default=ROOT / "crates/trials/out/trials")
    parser.add_argument("--bidi", metavar="FILE", default=ROOT / "crates/bidi/out/bidi")
    asked = parser.parse_args()
    rows = asked.rows or all_rows
    with tempfile.TemporaryDirectory() as folder:
        bench = Bench(folder, asked.trials, asked.bidi)
        rows(bench)
        print(f"refusals: {bench.count} runs, {bench.problems} problems")
        sys.exit(bench.problems > 0)


main()
