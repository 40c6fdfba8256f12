#!/usr/bin/env python3
"""Builds `bidi` without its proofs: crates/bidi/out/bidi-unproved.

    python3 tools/unproved.py [--seconds N]

`rt try` builds a program, with its checks at run time, only to run it once. This script has it run `bidi host`, copies the
program while it runs, and ends it. The copy is a program of its own. Nothing about it is proved: use it to try things, and to run
the test suite of a client.

N limits the processor time of the build, so a busy machine does not end it. `rt try` keeps nothing, so each build starts anew.
"""
import argparse
import contextlib
import http.client
import os
import pathlib
import shutil
import signal
import socket
import subprocess
import sys
import tempfile
import time

KIT = "rattle-kit-13"
CRATE = pathlib.Path(__file__).resolve().parent.parent / "crates" / "bidi"
LAUNCHER = CRATE / "out" / "bidi-unproved"
PROGRAM = CRATE / "out" / "bidi-unproved.program"

# `exec` leaves the arguments, the streams, the process id and the signals to the program.
LAUNCH = """\
#!/bin/sh
echo 'bidi-unproved: this program is not proved, and is for trying things only' >&2
exec "$(dirname "$(readlink -f "$0")")/bidi-unproved.program" "$@"
"""

# What a build takes, rounded up: the memory of all its processes at once.
NEEDED_SECONDS, NEEDED_GB = 240, 7
LONGEST = 999999  # the most seconds of a build, and those that `rt try` gives the program
STEP = 20  # seconds of a processor between two lines of progress
IDLE = 300  # seconds without processor time after which a build has stopped
TICKS, PAGE = os.sysconf("SC_CLK_TCK"), os.sysconf("SC_PAGE_SIZE")

NEXT = """\
{launcher} is built ({version}). It is not proved.

Run the example suite over it:
    BIDI={launcher} /usr/bin/python3 -m pytest examples/clients/pytest
Or start a host:
    {launcher} host
"""


class Failed(Exception):
    """The program was not built; the text says why."""


def warn_of_other_kit(rt):
    """Warns if `rt` is not the command of the kit with which the repository is proved."""
    said = subprocess.run([rt, "version"], stdout=subprocess.PIPE, stderr=subprocess.STDOUT, text=True).stdout
    if not said.startswith(KIT):
        print(f"warning: `rt version` says {said.strip()!r}; this repository is proved with {KIT}", file=sys.stderr)


def free_port():
    """Returns a port of 127.0.0.1 on which nothing listens."""
    with socket.create_server(("127.0.0.1", 0)) as it:
        return it.getsockname()[1]


def is_ready(port):
    """Returns whether a host answers on the port."""
    connection = http.client.HTTPConnection("127.0.0.1", port, timeout=5)
    try:
        connection.request("GET", "/status")
        return connection.getresponse().status == 200
    except (OSError, http.client.HTTPException):
        return False
    finally:
        connection.close()


def command_lines():
    """Yields the id and the command line, as a list of words, of each process."""
    for it in pathlib.Path("/proc").glob("[0-9]*"):
        with contextlib.suppress(OSError):
            yield int(it.name), os.fsdecode((it / "cmdline").read_bytes()).split("\0")


def program_below(folder):
    """Returns the program that runs from a file in the folder, or fails."""
    for _, words in command_lines():
        for it in words:
            if it.startswith(f"{folder}/") and it.endswith("/program"):
                return it
    raise Failed("the program that `rt try` started was not found")


def end_below(folder):
    """Kills the processes whose command line names a file in the folder."""
    for pid, words in command_lines():
        if any(it.startswith(f"{folder}/") for it in words):
            with contextlib.suppress(ProcessLookupError):
                os.kill(pid, signal.SIGKILL)


def used_by(root):
    """Returns the seconds of a processor and the bytes of memory that a process and those below it use."""
    stats, below = {}, {root}
    for it in pathlib.Path("/proc").glob("[0-9]*"):
        with contextlib.suppress(OSError):
            # The fields after the name, from the third on; proc(5).
            stats[int(it.name)] = (it / "stat").read_bytes().rpartition(b")")[2].split()
    while found := {pid for pid, fields in stats.items() if int(fields[1]) in below} - below:
        below |= found
    every = [stats[pid] for pid in below & set(stats)]
    return sum(int(it) for fields in every for it in fields[11:15]) / TICKS, sum(int(fields[21]) for fields in every) * PAGE


class Usage:
    """What a build has used, with a line of progress from time to time."""

    def __init__(self, root, seconds):
        self.root, self.most, self.seconds, self.memory, self.shown, self.grew = root, seconds, 0.0, 0, 0.0, time.monotonic()

    def look(self):
        """Looks again; fails if the build has used too much or has stopped."""
        seconds, memory = used_by(self.root)
        if seconds > self.seconds:
            self.seconds, self.grew = seconds, time.monotonic()
        self.memory = max(self.memory, memory)
        if self.seconds > self.most:
            raise Failed(f"the build took more than {self.most} seconds of a processor; give more by --seconds N")
        if time.monotonic() > self.grew + IDLE:
            raise Failed(f"the build has used no processor for {IDLE} seconds")
        if self.seconds >= self.shown + STEP:
            self.shown = self.seconds
            print(f"  {self.seconds:.0f} of about {NEEDED_SECONDS} seconds, {self.memory / 1e9:.1f} GB", flush=True)

    def __str__(self):
        return f"{self.seconds:.0f} seconds of a processor and {self.memory / 1e9:.1f} GB of memory"


def wait_until_ready(tried, port, seconds, log):
    """Waits until the host answers; fails if `rt try` ends before, or uses more than so many seconds of a processor."""
    usage = Usage(tried.pid, seconds)
    while not is_ready(port):
        if tried.poll() is not None:
            raise Failed(f"the build failed; `rt try` said:\n{log.read_text(errors='replace')}")
        usage.look()
        time.sleep(0.5)
    print(f"The build took {usage}.", flush=True)


@contextlib.contextmanager
def trying(rt, port, folder, log):
    """Runs `bidi host` by `rt try`, which leaves nothing outside the folder, and ends it."""
    words = [rt, "try", "--seconds", str(LONGEST), "--", "host", "--port", str(port)]
    env = {**os.environ, "TMPDIR": folder}
    with log.open("wb") as out:
        streams = {"stdin": subprocess.DEVNULL, "stdout": out, "stderr": subprocess.STDOUT}
        tried = subprocess.Popen(words, cwd=CRATE, env=env, start_new_session=True, **streams)
    try:
        yield tried
    finally:
        tried.terminate()
        with contextlib.suppress(subprocess.TimeoutExpired):
            tried.wait(timeout=20)
        tried.kill()
        tried.wait()
        end_below(folder)


def put(path, data):
    """Writes a program, in one step, so that one that runs is left alone."""
    new = path.with_name(path.name + ".new")
    new.write_bytes(data)
    new.chmod(0o755)
    new.replace(path)


def build(rt, seconds):
    """Builds the program and its launcher."""
    port = free_port()
    with tempfile.TemporaryDirectory(prefix="bidi-unproved-") as folder:
        log = pathlib.Path(folder, "said")
        with trying(rt, port, folder, log) as tried:
            wait_until_ready(tried, port, seconds, log)
            PROGRAM.parent.mkdir(exist_ok=True)
            put(PROGRAM, pathlib.Path(program_below(folder)).read_bytes())
    put(LAUNCHER, LAUNCH.encode())


def version():
    """Returns what the program says of its version."""
    ran = subprocess.run([LAUNCHER, "--version"], stdout=subprocess.PIPE, stderr=subprocess.PIPE, text=True)
    if ran.returncode:
        raise Failed(f"{LAUNCHER} does not run: {ran.stderr.strip()}")
    return ran.stdout.strip()


def seconds_in(word):
    """Returns the number of seconds that an argument says."""
    if not word.isascii() or not word.isdigit() or not 1 <= int(word) <= LONGEST:
        raise argparse.ArgumentTypeError(f"a whole number from 1 to {LONGEST} is wanted")
    return int(word)


def main():
    parser = argparse.ArgumentParser(description="Builds bidi without its proofs: crates/bidi/out/bidi-unproved.")
    parser.add_argument("--seconds", type=seconds_in, default=900, help="how many seconds of a processor the build may take (900)")
    seconds = parser.parse_args().seconds
    for it in (signal.SIGTERM, signal.SIGHUP):
        signal.signal(it, lambda number, _: sys.exit(128 + number))
    rt = shutil.which("rt")
    if not rt:
        raise Failed(f"`rt` is not on the path: it is the command of the Rattle kit, here {KIT}, on x86-64 Linux")
    warn_of_other_kit(rt)
    print(f"Building the program without its proofs. This takes about {NEEDED_SECONDS} seconds of a processor and {NEEDED_GB} GB of "
          "memory.", flush=True)
    build(rt, seconds)
    print(NEXT.format(launcher=os.path.relpath(LAUNCHER), version=version()), end="")


if __name__ == "__main__":
    try:
        main()
    except Failed as fault:
        sys.exit(f"unproved.py: {fault}")
    except KeyboardInterrupt:
        sys.exit("unproved.py: interrupted")
