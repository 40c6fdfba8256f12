#!/usr/bin/env python3
"""Fills in the figures of docs/MEASURED.md: measured.py [WORD ..]

The page has a block for each measurement, between `<!-- measured: COMMAND -->` and `<!-- end -->`. This runs COMMAND at the top of
the repository and writes what it prints into the block, below the commit and the machine. With words it runs only the commands
that have one of them. A block whose command fails stays as it was; a line says so, and the status is then 1. `rt ci` has to have
built the programs. Nothing else should run meanwhile.

    measured.py --gate LOG   takes the seconds of the gate from what `tools/gate_work.py .ci/run` printed
"""
import os
import re
import subprocess
import sys
import time

import options
import sources

PAGE = sources.ROOT / "docs/MEASURED.md"
GATE = ".ci/run"
BLOCK = re.compile(r"(<!-- measured: ([^\n]+) -->\n).*?(?=<!-- end -->)", re.S)
# How many crates the page shows of those of the gate, the costliest first.
CRATES = 5


def machine():
    """The processors and the memory of this machine."""
    cpu = re.search(r"model name\s*: (.*)", open("/proc/cpuinfo").read())[1]
    memory = int(re.search(r"MemTotal:\s*(\d+)", open("/proc/meminfo").read())[1]) / 2**20
    return f"{os.cpu_count()} processors ({cpu}), {memory:.0f} GiB"


def commit():
    words = ["git", "-C", sources.ROOT, "describe", "--always", "--dirty", "--abbrev=7"]
    return subprocess.run(words, stdout=subprocess.PIPE, text=True, check=True).stdout.strip()


def block(printed, place):
    """What stands in a block: where it was measured, and all that was printed."""
    lines = [line.rstrip() for line in printed.strip().splitlines()]
    return "\n".join([f"Commit `{place}`, {machine()}:", "", "```text", *lines, "```"]) + "\n"


def measured(command):
    """What a command prints, or nothing if it fails."""
    began = time.monotonic()
    words = ["bash", "-o", "pipefail", "-c", command]
    run = subprocess.run(words, cwd=sources.ROOT, stdout=subprocess.PIPE, stderr=subprocess.STDOUT, text=True)
    print(f"{time.monotonic() - began:.0f} s: {command}", flush=True)
    if run.returncode:
        print(f"FAILED, with status {run.returncode}: {run.stdout[-500:]}", flush=True)
    return "" if run.returncode else run.stdout


def of_gate(log):
    """The end of what the gate printed: the seconds of each kind of step, the costliest crates, and the sums."""
    lines = open(log).read().splitlines()
    lines = lines[max(at for at, line in enumerate(lines) if line.startswith("seconds: ")):]
    first = next(at for at, line in enumerate(lines) if line.startswith("crate ")) + 1
    last = next(at for at, line in enumerate(lines) if line.startswith("seconds ") and at > first)
    return "\n".join(lines[:min(first + CRATES, last)] + lines[last:])


def main():
    parser = options.parser(__doc__)
    parser.add_argument("--gate", metavar="LOG")
    parser.add_argument("words", metavar="WORD", nargs="*")
    asked, place, failed = parser.parse_args(), commit(), False
    log, words = asked.gate, asked.words
    for head, command in BLOCK.findall(PAGE.read_text()):
        if command.endswith(GATE):
            printed = of_gate(log) if log else None
        elif log or words and not any(it in command for it in words):
            printed = None
        else:
            printed = measured(command)
            failed |= not printed
        if printed:
            text = PAGE.read_text()
            end = text.index("<!-- end -->", text.index(head))
            PAGE.write_text(text[:text.index(head)] + head + block(printed, place) + text[end:])
    return 1 if failed else 0


sys.exit(main())
