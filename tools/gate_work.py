#!/usr/bin/env python3
"""Measures the work of the gate in processor seconds: gate_work.py [--watch] [--keep FILE] [COMMAND ..]

Runs COMMAND (`rt ci` if none is given) at the top of a checkout, reads /proc five times a second, and adds up the processor time of
every process that works on a crate. The report has a line for each crate with its proof, its tests, its edits and its programs,
the sums, and the chain of crates with the most work in which each waits for the one before. All of it is also given in units of the
proof of `bidi_tree` in the same run, because machines differ. What ends between two readings is lost: less than a fifth of a second
for each process.

`--watch` runs no command: it measures what others run in this checkout, until it gets SIGINT or SIGTERM. `--keep FILE` adds what it measures
to the figures in FILE, and reports the sum of both.
"""
import json
import os
import signal
import subprocess
import sys
import time
from collections import defaultdict

TICK = os.sysconf("SC_CLK_TCK")
KINDS = ["proof", "tests", "edits", "programs"]
UNIT = "bidi_tree"


def processes():
    """The parent, the folder, the words and the processor time of each process, under its number and its start."""
    found = {}
    for pid in filter(str.isdigit, os.listdir("/proc")):
        try:
            with open(f"/proc/{pid}/stat") as file:
                fields = file.read().rpartition(")")[2].split()
            with open(f"/proc/{pid}/cmdline", "rb") as file:
                words = file.read().decode(errors="replace").split("\0")
            folder = os.readlink(f"/proc/{pid}/cwd")
        except OSError:
            continue
        found[pid] = fields[1], folder, words, (int(fields[11]) + int(fields[12])) / TICK, fields[19]
    return found


def task(top, found, pid):
    """The crate and the kind of work of a process, or None if it works on no crate of this checkout."""
    _, folder, words, _, _ = found[pid]
    if not folder.startswith((f"{top}/crates/", "/tmp/rt-edit-")):
        return None
    # A job of a check has no words of its own: its parent says what it is for.
    while "--crate-name" not in words and found[pid][0] in found:
        pid = found[pid][0]
        words = found[pid][2]
    if "--crate-name" not in words:
        return folder[len(top) + 8 :].split("/")[0], "programs"
    crate = words[words.index("--crate-name") + 1]
    if "rt-edit-" in folder:
        return crate, "edits"
    if "--crate-checked" in words:
        return crate, "programs"
    return crate, "tests" if "--test" in words else "proof"


def measure(top, used, process):
    """Reads the processor time of each process until the command ends, or until an interrupt."""
    seen = {}
    try:
        while process is None or process.poll() is None:
            found = processes()
            for pid, (_, _, _, seconds, start) in found.items():
                work = seen[pid, start][0] if (pid, start) in seen else task(top, found, pid)
                if work:
                    seen[pid, start] = work, seconds
            time.sleep(0.2)
    except KeyboardInterrupt:
        pass
    for (crate, kind), seconds in seen.values():
        used[crate][kind] = used[crate].get(kind, 0) + seconds


def below(top):
    """The libraries of this repository that each crate uses."""
    lines = {}
    with open(f"{top}/crates.txt") as file:
        for line in file:
            name, colon, rest = line.partition("#")[0].partition(":")
            if colon:
                lines[name.strip()] = rest.split()
    return {name: [it for it in uses if it in lines] for name, uses in lines.items()}


def longest(uses, used):
    """The chain of crates with the most work, and its seconds."""
    chains = {}

    def chain(name):
        if name not in chains:
            best = max((chain(it) for it in uses[name]), default=(0, []))
            chains[name] = best[0] + used[name].get("proof", 0), [*best[1], name]
        return chains[name]

    return max(chain(name) for name in uses)


def report(top, used):
    uses = below(top)
    unit = used[UNIT].get("proof") or 1
    print(f"{'crate':<20}" + "".join(f"{kind:>10}" for kind in KINDS))
    for name in sorted(filter(used.get, uses), key=lambda it: -sum(used[it].values())):
        print(f"{name:<20}" + "".join(f"{used[name].get(kind, 0):>10.1f}" for kind in KINDS))
    sums = [sum(used[name].get(kind, 0) for name in uses) for kind in KINDS]
    seconds, names = longest(uses, used)
    for label, share in [("seconds", 1), (f"times {UNIT}", unit)]:
        print(f"{label:<20}" + "".join(f"{it / share:>10.1f}" for it in sums))
        print(f"all: {sum(sums) / share:.1f} {label}; longest chain: {seconds / share:.1f} {label}")
    print("the longest chain: " + ", ".join(names))


def main(words):
    if words[:1] and words[0].startswith("-") and words[0] not in ("--watch", "--keep"):
        print(f"gate_work.py: no option {words[0]}\n{__doc__}", file=sys.stderr)
        return 2
    watch = words[:1] == ["--watch"]
    words = words[watch:]
    keep = None
    if words[:1] == ["--keep"]:
        keep, words = words[1], words[2:]
    used = defaultdict(dict)
    if keep and os.path.isfile(keep):
        with open(keep) as file:
            used.update(json.load(file))
    top = os.getcwd()
    for number in (signal.SIGINT, signal.SIGTERM):
        signal.signal(number, signal.default_int_handler)
    process = None if watch else subprocess.Popen(words or ["rt", "ci"])
    measure(top, used, process)
    if keep:
        with open(keep, "w") as file:
            json.dump(used, file, indent=1)
    report(top, used)
    return process.returncode if process else 0


if __name__ == "__main__":
    sys.exit(main(sys.argv[1:]))
