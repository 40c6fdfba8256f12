#!/usr/bin/env python3
"""Runs each example and compares what is written with its file: examples.py BIDI

In examples/, NAME.play, NAME.pair and NAME.texts are inputs, and NAME.out is what is written for them. NAME.reduced is what is left
of NAME.play for its session 1. A line is printed for each example that is written otherwise or has only one of its files. The
status is 1 if there is one.
"""
import subprocess
import sys
from pathlib import Path

import options

EXAMPLES = Path(__file__).resolve().parent.parent / "examples"
# The words of the program for an input, by what its output is called, and the status with which the program ends.
RUNS = [
    (".play", ["play"], ".out", 0),
    (".pair", ["pair"], ".out", 0),
    (".texts", ["check", "--from", "remote"], ".out", 1),
    (".play", ["reduce", "--session", "1"], ".reduced", 0),
]


def fault(program, source, words, wanted, status):
    """What is wrong with an example, if anything is."""
    if not wanted.exists():
        return f"there is no {wanted.name}"
    with source.open("rb") as file:
        run = subprocess.run([program, *words], stdin=file, stdout=subprocess.PIPE, stderr=subprocess.PIPE, timeout=60)
    if run.returncode != status:
        return f"status {run.returncode}, not {status}: {run.stderr.decode(errors='replace').strip()}"
    lines = [text.split(b"\n") for text in (run.stdout, wanted.read_bytes())]
    if lines[0] != lines[1]:
        at = next((k for k, (a, b) in enumerate(zip(*lines)) if a != b), min(map(len, lines)))
        return f"line {at + 1} of {wanted.name} is written otherwise"


def main():
    program, told, count, used = options.program_and_names(__doc__).program, [], 0, set()
    for suffix, words, out, status in RUNS:
        for source in sorted(EXAMPLES.glob("*" + suffix)):
            wanted = source.with_suffix(out)
            if out == ".reduced" and not wanted.exists():
                continue
            count += 1
            used |= {wanted}
            if wrong := fault(program, source, words, wanted, status):
                told.append(f"examples/{source.name}, {' '.join(words)}: {wrong}")
    told += [f"examples/{it.name}: there is no input for it" for it in sorted(EXAMPLES.glob("*.out")) if it not in used]
    print(*told, f"examples: {count} runs, {len(told)} wrong", sep="\n")
    return 1 if told or not count else 0


sys.exit(main())
