#!/usr/bin/env python3
"""The gate: what `.ci/run` runs, in this order. At the top of the repository: tools/gate.py

First come the checks of texts, which take seconds; if one fails, nothing else is run. Then `rt ci` proves every crate from nothing,
tries the must-fail edits, and runs the tests and the programs. The last steps run the program that it built. A step that
fails prints a line `FAILED: WHAT` below its own output, and the status is then 1, or that of `rt ci`. At the end stand the seconds
of each kind of step. The last line is `N passed, M failed`: the counts of `rt ci`, and those of the steps.
"""
import os
import re
import shutil
import subprocess
import sys
import time
from collections import Counter
from pathlib import Path

import options

ROOT = Path(__file__).resolve().parent.parent
BIDI = ROOT / "crates/bidi/out/bidi"
# The kind of a step, and its words.
TEXTS = [
    ("texts", "tools/clauses.py --missing"),
    ("texts", "tools/clauses.py --check"),
    ("texts", "tools/definitions.py --missing"),
    ("texts", "tools/definitions.py --check"),
    ("texts", "tools/theorems.py --check"),
    ("texts", "tools/profile.py"),
    ("texts", "tools/picture.py --check"),
    ("texts", "tools/edits.py --check"),
    ("texts", "tools/grammars.py --check"),
    ("texts", "tools/links.py"),
    ("texts", "tools/limits.py"),
    ("texts", "tools/drift_test.py"),
    ("texts", "tools/look_test.py"),
    ("texts", "tools/rows_of_log_test.py"),
    ("texts", "tools/release_test.py"),
]
PROGRAM = [
    ("refused allocations", "tools/refusals.py --short"),
    ("examples", f"tools/examples.py {BIDI}"),
    ("documents", f"tools/blocks.py {BIDI}"),
    ("command lines", f"tools/command_lines.py {BIDI}"),
    ("scripted plays", f"tools/scripted_plays.py {BIDI}"),
    ("reasons of JSON", f"tools/json_reasons.py {BIDI} 20000"),
    ("host checks", f"tools/host_checks.py {BIDI}"),
]
# The words of `trials` that `rt ci` does not run, with the files of what they read and of what they have to write.
TRIALS = ROOT / "crates/trials"
WORDS = [("bench tree 100", os.devnull, "bench.out"), ("refusals", TRIALS / "refusals.in", "refusals.out")]
NODE_SUITES = [f"examples/clients/node/{name}.test.js" for name in ("host", "faults", "fixture")]
NODE_PATH = "/usr/share/nodejs"
seconds, ended = Counter(), Counter()


def count(kind, began, fails):
    """Counts a step that began then, and gives 1 if it fails."""
    seconds[kind] += time.monotonic() - began
    ended["failed" if fails else "passed"] += 1
    return 1 if fails else 0


def run(kind, words, **variables):
    """Runs a step, and gives 1 if it fails."""
    began = time.monotonic()
    environment = {key: value for key, value in os.environ.items() if key != "BIDI"} | variables
    status = subprocess.run(words, cwd=ROOT, env=environment).returncode
    if status:
        print("FAILED:", *words[1:] if words[0] == sys.executable else words, flush=True)
    return count(kind, began, status)


def steps(every):
    """Runs these steps, and gives 1 if one of them fails."""
    return max([run(kind, [sys.executable, *words.split()]) for kind, words in every])


def prove():
    """Runs `rt ci`, a check for each processor, adds what its last line counts, and gives its status."""
    # Without RT_JOBS, `rt ci` leaves processors idle: it gives each check some three times the memory that any takes.
    began, last = time.monotonic(), ""
    environment = {**os.environ, "RT_JOBS": str(len(os.sched_getaffinity(0)))}
    with subprocess.Popen(["rt", "ci"], cwd=ROOT, env=environment, stdout=subprocess.PIPE, text=True, errors="replace") as ci:
        for line in ci.stdout:
            print(line, end="", flush=True)
            last = line
    seconds["rt ci"] = time.monotonic() - began
    for number, word in re.findall(r"(\d+) (passed|failed)", last):
        ended[word] += int(number)
    if ci.returncode:
        print("FAILED: rt ci", flush=True)
    return ci.returncode


def trials():
    """Runs the other words of `trials`, as each compiler built it, and gives 1 if one of them writes something else than it should."""
    began, wrong = time.monotonic(), []
    for program in (TRIALS / "out/trials", TRIALS / "out/trials.by-rattle"):
        for words, source, wanted in WORDS:
            with open(source, "rb") as file:
                ran = subprocess.run([program, *words.split()], stdin=file, capture_output=True)
            if ran.returncode or ran.stdout != (TRIALS / wanted).read_bytes():
                wrong.append(f"{program.name} {words}")
    for words in wrong:
        print("FAILED:", words, flush=True)
    return count("trials", began, wrong)


def can(*words, **variables):
    """Whether a command is there and ends well."""
    return bool(shutil.which(words[0])) and subprocess.run(words, env={**os.environ, **variables}, capture_output=True).returncode == 0


def suites():
    """Runs the suites of the examples of clients, as far as what they need is installed; gives 1 if one of them fails."""
    pythons = [it for it in ("/usr/bin/python3", sys.executable) if can(it, "-c", "import pytest, websockets")]
    every = [([*pythons[:1], "-m", "pytest", "-q", "examples/clients/pytest"], {})] if pythons else []
    if can("node", "-e", "require('ws')", NODE_PATH=NODE_PATH):
        every.append((["node", "--test", "--test-reporter=dot", *NODE_SUITES], {"NODE_PATH": NODE_PATH}))
    if can("node", "--experimental-websocket", "-e", "new WebSocket('ws://127.0.0.1:1').onerror = () => {}"):
        every.append((["node", "--experimental-websocket", "--test", "--test-reporter=dot", *NODE_SUITES], {"BIDI_WEBSOCKET": "builtin"}))
    if not pythons:
        print("not run: the suite for pytest needs a Python with pytest and websockets")
    if len(every) == len(pythons[:1]):
        print("not run: the suite for Node needs node, with ws or a WebSocket of its own")
    return max([run("client suites", words, BIDI=str(BIDI), **variables) for words, variables in every], default=0)


def main():
    options.parser(__doc__).parse_args()
    status = steps(TEXTS) or prove() or max(steps(PROGRAM), trials(), suites())
    print("seconds:", ", ".join(f"{kind} {time:.0f}" for kind, time in seconds.items()))
    print(f"{ended['passed']} passed, {ended['failed']} failed")
    return status


if __name__ == "__main__":
    sys.exit(main())
