#!/usr/bin/env python3
"""Measures one or two builds of `bidi` by turns:
speed.py [--growth | --instructions | --lines | --rows] [--times N] [--only NAME,..] BEFORE [AFTER]

BEFORE and AFTER are words that start a program. `workloads.py` writes each input, and each program reads it N times.
The table has the least seconds of processor, with those of the system, and the most memory; the output is thrown away meanwhile.
Then they run once more side by side. The last column of two programs says whether their outputs differ. Below the table stands each
input for which they do, or for which something is refused that should be done; the status is 1 then. With --growth it prints the
microseconds of a line beside few and many, and with --instructions the instructions of a line, which valgrind counts. Those do not
depend on what else the machine does. With --lines it prints the instructions of a line of each workload, and which share of BEFORE's are
AFTER's. With --rows it prints the instructions of a status in a play, in a scripted play, and beside rows.
"""
import argparse
import ctypes
import os
import re
import shlex
import subprocess
import tempfile

import workloads

# A name of `workloads.py`, a count, and a size where it is not the usual one.
WORKLOADS = """events 500000, shown 500000, misfits 100000, turns 300000, refused 300000, pair 100000, connections 300000, sessions_come 50000,
contexts 1008, frames 20000, creates 10, looks 20000, navigate_last 20000, navigate 100000, reduced 100000, evaluate 200000 10,
evaluate 100000 1000, evaluate 200 1000000, values 100000, values 1000 100000, cut 100000, call 100000 10, call 50000 1000, call 100 1000000,
numbers 20, handles 50000, subscribe 50000, subscribe_tabs 500, unheard 20000, users 5000, log 100000, heard 100000, heard_by_all 10000,
fan 20000"""
# What grows, through which sizes, and for each name a count; a count times a size passes no 200,000,000.
GROWTH = [
    ("contexts", [16, 64, 256, 1023], "frames 20000, looks 20000, navigate_last 20000, subscribe_tabs 500"),
    ("subscriptions", [1, 16, 64, 255], "subscribe 20000, unheard 20000"),
    ("handles", [1, 10, 100, 999], "handles 20000"),
    ("connections", [1, 4, 16, 64], "connections 200000"),
    ("bytes", [10, 1000, 100000, 1000000], "evaluate 100000, call 100000"),
]
# What reads an input of that name, where it is not `bidi play`.
READERS = {
    "events": ["check", "--from", "remote"],
    "shown": ["show", "--from", "remote"],
    "misfits": ["check", "--from", "remote", "--why"],
    "pair": ["pair"],
    "reduced": ["reduce", "--session", "1"],
}
# The inputs in which something is refused, with the status of a program that reads them.
MEANT = {"refused": 0, "misfits": 1}
REFUSED = [b'"type":"error"', b"no effect\n", b"denied ", b"lost ", b" waiting\n", b" unsent ", b": no fit\n"]


def make(given, name, *numbers):
    """Writes the input of these words, and gives its lines."""
    given.name, given.status = name, MEANT.get(name, 0)
    given.commands = [program + READERS.get(name, ["play"]) for program in given.programs]
    with open(given.input.name, "w") as file:
        return workloads.write(file, name, *numbers)


def run(command, path):
    """The seconds and the megabytes of a command over that file."""
    # A process begins with the memory of who starts it. So a small shell does, and leaves it to this process by its own end.
    subprocess.run(["/bin/sh", "-c", '"$@" < "$0" > /dev/null 2>&1 &', path, *command], check=True)
    _, status, usage = os.wait4(-1, 0)
    if os.waitstatus_to_exitcode(status) != given.status:
        raise SystemExit(f"{shlex.join(command)}: status {os.waitstatus_to_exitcode(status)}")
    return usage.ru_utime + usage.ru_stime, usage.ru_maxrss / 1024


def best(given):
    """The least seconds of each command, and the most megabytes of each, all of them by turns."""
    runs = [[run(command, given.input.name) for command in given.commands] for _ in range(given.times)]
    return [[most(one[k] for one in own) for own in zip(*runs)] for k, most in enumerate([min, max])]


def fault(given):
    """What is wrong with what the commands write, if anything is."""
    found, line, rest, parts = None, 1, b"", [b" "]
    pipes = {"stdout": subprocess.PIPE, "stderr": subprocess.DEVNULL}
    ends = [subprocess.Popen(it, stdin=open(given.input.name, "rb"), **pipes) for it in given.commands]
    while found is None and any(parts):
        parts = [end.stdout.read(1 << 20) for end in ends]
        text, rest = rest + parts[0], parts[0][-20:]
        if parts[0] != parts[-1]:
            found = f"line {line + os.path.commonprefix(parts).count(10)} differs"
        elif given.name not in MEANT and any(word in text for word in REFUSED):
            found = "something is refused"
        line += parts[0].count(10)
    for end in ends:
        end.kill()
        end.communicate()
    return found


def row(name, *cells):
    print(f"{name:<31}" + "".join(f"{it:>15}" for it in cells), flush=True)


def measure(given, chosen):
    """Prints the table of all inputs, and what is wrong below it; gives the status."""
    two, told = len(given.programs) > 1, []
    ends = [" before", " after"] if two else [""]
    heads = ["workload", "count", *(f"seconds{it}" for it in ends), *(f"MB{it}" for it in ends), *["ratio", "written"] * two]
    row(*heads)
    for name, count, *size in chosen(WORKLOADS):
        make(given, name, count, *size)
        (seconds, memory), wrong = best(given), fault(given)
        compared = [f"{seconds[-1] / seconds[0]:.2f}", wrong or "the same"] if two else []
        row(" ".join([name, *size]), count, *(f"{it:.2f}" for it in seconds), *(f"{it:.1f}" for it in memory), *compared)
        told += [f"WRONG: {name}: {wrong}"] if wrong else []
    print(*told, sep="\n", end="\n" if told else "")
    return 1 if told else 0


def growth(given, chosen):
    """Prints the microseconds of a line: the difference between a count and its tenth part, in which no start is."""
    row("microseconds of a line of", "beside")
    for what, sizes, workloads in GROWTH:
        for name, most in chosen(workloads):
            columns = []
            for size in sizes:
                counts = [min(int(most), 200_000_000 // size) // part for part in (10, 1)]
                (few, short), (many, long) = [(make(given, name, it, size), best(given)[0]) for it in counts]
                columns.append([f"{size}: {(b - a) / (many - few) * 1e6:.2f}" for a, b in zip(short, long)])
            for title, times in zip([name, f"{name}, after"], zip(*columns)):
                row(title, what, *times)


def count_instructions(command, path):
    """The instructions of a command over that file."""
    tool = ["valgrind", "--tool=callgrind", "--callgrind-out-file=/dev/null", *command]
    run = subprocess.run(tool, stdin=open(path, "rb"), stdout=subprocess.DEVNULL, stderr=subprocess.PIPE, text=True)
    found = re.search(r"Collected : (\d+)", run.stderr)
    if run.returncode != given.status or not found:
        raise SystemExit(f"valgrind counts nothing of {shlex.join(command)}")
    return int(found[1])


def strip(given):
    """Has the programs stand without what the compiler says of their source, which valgrind cannot read."""
    for place, program in enumerate(given.programs):
        stripped = f"{given.folder}/{place}"
        subprocess.run(["strip", "-o", stripped, program[0]], check=True)
        program[0] = stripped


def instructions(given, chosen):
    """Prints the instructions of a line: the difference between inputs of 50 and of 550 of what is repeated."""
    strip(given)
    row("a line of", "what grows", "few", "many", "many / few")
    for what, sizes, workloads in GROWTH[:-1]:
        for name, _ in chosen(workloads):
            found = []
            for size in (sizes[0], sizes[-1]):
                ends = []
                for count in (50, 550):
                    lines = make(given, name, count, size)
                    ends.append((lines, [count_instructions(it, given.input.name) for it in given.commands]))
                (few, short), (many, long) = ends
                found.append([(b - a) / (many - few) for a, b in zip(short, long)])
            for title, small, large in zip([name, f"{name}, after"], *found):
                row(title, what, f"{sizes[0]}: {small:,.0f}", f"{sizes[-1]}: {large:,.0f}", f"{large / small:.2f}")


def lines(given, chosen):
    """Prints the instructions of a line of each input: the difference between a small input and one in which what is repeated comes twice as often."""
    strip(given)
    two = len(given.programs) > 1
    row("a line of", *(["before", "after", "share"] if two else ["instructions"]))
    for name, most, *size in chosen(WORKLOADS):
        few, ends = max(int(most) // 500, 1), []
        while make(given, name, few, *size) == make(given, name, 2 * few, *size):
            few *= 2
        for count in (few, 2 * few):
            ends.append((make(given, name, count, *size), [count_instructions(it, given.input.name) for it in given.commands]))
        (short, small), (long, large) = ends
        each = [(b - a) / (long - short) for a, b in zip(small, large)]
        row(" ".join([name, *size]), *(f"{it:,.0f}" for it in each), *[f"{each[-1] / each[0]:.2f}"] * two)


def rows(given, chosen):
    """Prints the instructions of a status in a play, in a scripted play, and beside rows of other methods; and the shares of the first."""
    strip(given)
    answers = [f'answer {{"method":"network.m{it}","result":{{}}}}\n' for it in range(1024)]
    places = [("a play", [], []), ("a scripted play", ["--scripted"], []), ("a scripted play with 1,024 rows", ["--scripted"], answers)]
    plain = {}
    row("a status in", "instructions", "share")
    for title, options, first in places:
        for place, program in enumerate(given.programs):
            ends = []
            for count in (500, 2500):
                texts = (f'> 1 {{"id":{it},"method":"session.status","params":{{}}}}\n' for it in range(count))
                with open(given.input.name, "w") as file:
                    file.writelines(["open 1 /session\n", *first, *texts])
                ends.append(count_instructions([*program, "play", *options], given.input.name))
            each = (ends[1] - ends[0]) / 2000
            share = each / plain.setdefault(place, each)
            row(title + ", after" * place, f"{each:,.0f}", f"{share:.3f}")


words = argparse.ArgumentParser(usage=__doc__)
words.add_argument("programs", nargs="+", type=shlex.split)
words.add_argument("--growth", action="store_true")
words.add_argument("--instructions", action="store_true")
words.add_argument("--lines", action="store_true")
words.add_argument("--rows", action="store_true")
words.add_argument("--times", type=int, default=3)
words.add_argument("--only", type=lambda text: text.split(","))
given = words.parse_args()
given.status = 0
ctypes.CDLL(None).prctl(36, 1)  # PR_SET_CHILD_SUBREAPER
with tempfile.NamedTemporaryFile() as given.input, tempfile.TemporaryDirectory() as given.folder:
    pick = lambda text: [it.split() for it in text.split(",") if not given.only or it.split()[0] in given.only]
    tables = {"growth": growth, "instructions": instructions, "lines": lines, "rows": rows}
    table = next((tables[it] for it in tables if getattr(given, it)), measure)
    raise SystemExit(table(given, pick))
