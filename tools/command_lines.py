#!/usr/bin/env python3
"""Runs command lines and compares what is written with docs/FORMATS.md: command_lines.py BIDI

Each row has the words, standard input, the status, the end of standard output and the whole of standard error. A line is printed for
each row that ends otherwise. The status is 1 if there is one. Crates test the same without files; these rows are about the program.
"""
import os
import re
import subprocess
import sys
import tempfile
from pathlib import Path

import options

VERSION = "bidi 0.1.0, profile P2\n"
TRY = "\n\nFor more information, try '--help'.\n"
PLAIN = "open 1 /session\n"
# The words, standard input, and then the status, standard output and standard error. DIR is a folder of the files below.
ROWS = [
    ("--version", "", 0, VERSION, ""),
    ("-V", "", 0, VERSION, ""),
    ("version", "", 0, VERSION, ""),
    ("version 1", "", 2, "", f"error: unrecognized subcommand 'version'\n\nUsage: bidi <COMMAND>{TRY}"),
    ("help over", "", 2, "", f"error: unrecognized subcommand 'over'\n\nUsage: bidi <COMMAND>{TRY}"),
    ("check --from x", "", 2, "", f"error: `check --from` takes `local` or `remote`, not `x`\n\nUsage: bidi check [OPTIONS] [FILE]{TRY}"),
    ("host --port x", "", 2, "", f"error: `host --port` takes 0 to 65535, not `x`\n\nUsage: bidi host [OPTIONS]{TRY}"),
    ("check --both DIR/none", "", 3, "", "bidi: cannot read DIR/none: no such file\n"),
    ("check --both DIR", "", 3, "", "bidi: cannot read DIR: a directory\n"),
    ("show --from local DIR/plain/none", "", 3, "", "bidi: cannot read DIR/plain/none: no such file\n"),
    ("host --port 0 --page DIR/none", "", 3, "", "bidi: cannot read DIR/none: no such file\n"),
    ("host --port 0 --page DIR", "", 3, "", "bidi: cannot read DIR: a directory\n"),
    ("host --port 0 --record DIR", "", 3, "", "bidi: cannot write DIR: a directory\n"),
    ("host --port 0 --record DIR/none/x", "", 3, "", "bidi: cannot write DIR/none/x: no such file\n"),
    ("host --port 0 --page DIR/good.page --record /dev/full", "", 3, "", "bidi: cannot write /dev/full: no space is left\n"),
    ("host --port 0 --page DIR/word.page", "", 2, "", "bidi: line 2 is no line of a page\nbidi: DIR/word.page: \"at5\" is none of "
     "at, frame, unframe, log, value, answer, hold, release, unanswer, emit, on, names, send, bytes, raw, stall, resume, cut, close, refuse, reset and end\n"),
    ("host --port 0 --page DIR/crlf.page", "", 2, "", "bidi: line 1 is no line of a page\nbidi: DIR/crlf.page: a carriage return "
     "at its end\n"),
    ("host --port 0 --page DIR/short.page", "", 2, "", "bidi: line 2 is no line of a page\nbidi: DIR/short.page: no line feed at its end\n"),
    ("host --port 0 --page DIR/bytes.page", "", 2, "", "bidi: line 1 is no line of a page\nbidi: DIR/bytes.page: not UTF-8\n"),
    ("host --port 0 --page DIR/reset.page", "", 2, "", "bidi: line 2 is no line of a page\nbidi: DIR/reset.page: a file has no `reset` "
     "and no `end`\n"),
    ("play", "at 01\n", 2, "", "bidi: line 1 is no play line\n"),
    ("play", "open 1 /session\r\n", 0, "denied 1\n", ""),
    ("play --scripted", "open 1 /session\r\n", 0, "denied 1\n",
     "bidi: line 1 ends in a carriage return, which is a part of its last field\n"),
    ("play --scripted", PLAIN + "at 01\n", 2, "opened 1\n",
     'bidi: line 2 is no play line\nbidi: "01" is no moment, a whole number from 0 to 9007199254740991\n'),
    ("play --scripted", "at 5\r\n", 2, "", "bidi: line 1 is no play line\nbidi: a carriage return at its end\n"),
    ("play --scripted", "drop 1\r\n", 2, "", "bidi: line 1 is no play line\nbidi: wants drop C; a carriage return at its end\n"),
    ("play --scripted", "\ufeffat 5\n", 2, "", "bidi: line 1 is no play line\nbidi: a byte order mark at its beginning\n"),
    ("play --scripted", "# a remark\n", 2, "", "bidi: line 1 is no play line\nbidi: \"#\" is none of at, open, drop, >, binary, frame, "
     "unframe, log, value, answer, hold, release, unanswer, emit, on, names, send, bytes, raw, stall, resume, cut, close and refuse\n"),
    ("play --scripted", "open 1\n", 2, "", "bidi: line 1 is no play line\nbidi: wants open C RESOURCE\n"),
    ("play --scripted", "at 5\nat 6", 2, "", "bidi: line 2 is no play line\nbidi: no line feed at its end\n"),
    ("reduce --session 1 --scripted", "names *\nlog c Info x\n", 2, "",
     'bidi: line 2 is no play line\nbidi: "Info" is no level: debug, info, warn or error\n'),
]
FILES = {
    "plain": PLAIN.encode(),
    "good.page": b"at 5\n",
    "word.page": b"at 5\nat5\n",
    "crlf.page": b"at 5\r\n",
    "short.page": b"at 5\nat 6",
    "bytes.page": b"names \xff\n",
    "reset.page": b"at 5\nreset\n",
}
# The same help in two ways.
SAME = [("help", "--help"), ("help check", "check --help"), ("help host", "host --help")]


def run(program, folder, words, text=""):
    """Runs the program, and gives the status and both outputs, in which the folder is DIR."""
    words = [word.replace("DIR", folder) for word in words.split()]
    ran = subprocess.run([program, *words], input=text.encode(), capture_output=True, timeout=60)
    said = [stream.decode(errors="replace").replace(folder, "DIR") for stream in (ran.stdout, ran.stderr)]
    # An unproved build says on standard error what it is.
    return ran.returncode, said[0], re.sub(r"^.*without its proofs.*\n|^.*is not proved.*\n", "", said[1], flags=re.M)


def main():
    program, wrong = os.path.abspath(options.program_and_names(__doc__).program), []
    with tempfile.TemporaryDirectory() as folder:
        for name, data in FILES.items():
            Path(folder, name).write_bytes(data)
        for words, text, *wanted in ROWS:
            found = run(program, folder, words, text)
            if found != tuple(wanted):
                wrong.append(f"bidi {words}: {found}, not {tuple(wanted)}")
        for one, other in SAME:
            found = run(program, folder, one)
            if found != run(program, folder, other) or found[0] or not found[1]:
                wrong.append(f"bidi {one} is not as bidi {other}: {found}")
    print(*wrong, f"command lines: {len(ROWS) + len(SAME)} runs, {len(wrong)} wrong", sep="\n")
    return 1 if wrong else 0


sys.exit(main())
