#!/usr/bin/env python3
"""Runs every test and every table of rows without a proof: quick.py [--jobs N] [CRATE ..]

`rt try --test` runs the tests of each crate that has some, and `rt try` runs crates/trials over the words in its file `args`, whose
output has to be its file `stdout`. CRATE names one of these crates; without it, all of them run. A line is printed for each crate
when it is done, with the seconds that it took, and below a crate that fails the end of what it wrote. The status is 1 if one fails,
and 2 for a bad command line.

Nothing is proved: use it after a change, and then prove what changed. Each crate is built anew with all that it uses. A crate of
tests takes some three minutes of a processor and 4 GB of memory, and the rows ten minutes and 7 GB.
"""
import argparse
import os
import re
import shutil
import signal
import subprocess
import sys
import threading
import time
from concurrent.futures import ThreadPoolExecutor
from pathlib import Path

CRATES = Path(__file__).resolve().parent.parent / "crates"
SHOWN = 40  # lines of what a crate wrote that are shown if it fails
# The seconds and the steps of a run, which no run needs: the defaults are too few for all rows.
LIMITS = ["--seconds", "36000", "--steps", "1000000000000"]
running, lock = set(), threading.Lock()


def has_tests(crate):
    return any("#[test]" in file.read_text() for file in crate.glob("src/**/*.rt"))


def words_of(crate):
    """The arguments of a program with tables of rows, or nothing."""
    args = crate / "args"
    return args.read_text().split("\n")[:-1] if args.exists() and (crate / "data").is_dir() else []


def crates():
    """What there is to run: the words of `rt` for each crate, and what its output has to be, if that is given."""
    for crate in sorted(CRATES.iterdir()):
        if has_tests(crate):
            yield crate, ["try", "--test", *LIMITS], None
        if words := words_of(crate):
            data = [word for file in sorted((crate / "data").iterdir()) for word in ("--data", f"{file.name}=data/{file.name}")]
            yield crate, ["try", *LIMITS, *data, "--", *words], (crate / "stdout").read_bytes()


def run(words, folder):
    """Runs a command, and gives its status, its output and what it wrote to standard error."""
    streams = {"stdin": subprocess.DEVNULL, "stdout": subprocess.PIPE, "stderr": subprocess.PIPE}
    with subprocess.Popen(words, cwd=folder, start_new_session=True, **streams) as child:
        with lock:
            running.add(child)
        written = child.communicate()
        with lock:
            running.discard(child)
    return child.returncode, *written


def is_well(crate, words, wanted):
    """Runs a crate, prints its line, and says whether all is well."""
    began = time.monotonic()
    status, written, said = run(["rt", *words], crate)
    faults = [f"status {status}"] * bool(status) + ["the output is not that of its file stdout"] * (wanted not in (None, written))
    line = f"{'FAILED' if faults else 'ok'} {crate.name} {time.monotonic() - began:.0f} s"
    shown = (written + said).decode(errors="replace").rstrip("\n").split("\n")[-SHOWN:] if faults else []
    count = re.search(r"^test result: ok\. (\d+) passed", written.decode(errors="replace"), re.M)
    print("\n    ".join([f"{line}{': ' + ', '.join(faults) if faults else f', tests: {count[1]}' if count else ''}", *shown]), flush=True)
    return not faults


def end_all(number, _):
    """Ends what still runs, and this script."""
    with lock:
        for child in running:
            child.terminate()
    os._exit(128 + number)


def jobs_in(word):
    if not re.fullmatch("[1-9][0-9]{0,2}", word):
        raise argparse.ArgumentTypeError("a whole number from 1 to 999 is wanted")
    return int(word)


def main():
    every = list(crates())
    parser = argparse.ArgumentParser(description="Runs every test and every table of rows without a proof.")
    parser.add_argument("--jobs", type=jobs_in, default=2, metavar="N", help="how many crates run at once (2)")
    parser.add_argument("crates", nargs="*", metavar="CRATE", help="a crate with tests or rows; all of them if none is named")
    given = parser.parse_args()
    names = [crate.name for crate, _, _ in every]
    unknown = [name for name in given.crates if name not in names]
    if unknown:
        parser.error(f"no crate with tests or rows: {' '.join(unknown)}; there are {' '.join(names)}")
    if not shutil.which("rt"):
        parser.error("`rt`, the command of the Rattle kit, is not on the path")
    for it in (signal.SIGTERM, signal.SIGHUP, signal.SIGINT):
        signal.signal(it, end_all)
    chosen = [it for it in every if not given.crates or it[0].name in given.crates]
    chosen.sort(key=lambda it: it[2] is None)  # the rows first, which take longest
    with ThreadPoolExecutor(given.jobs) as pool:
        results = list(pool.map(lambda it: is_well(*it), chosen))
    print(f"{results.count(True)} passed, {results.count(False)} failed")
    return 1 if False in results else 0


if __name__ == "__main__":
    sys.exit(main())
