#!/usr/bin/env python3
"""Runs the shell blocks of the documents for users, in order, from the top of the repository: blocks.py BIDI [DOCUMENT ..]

BIDI is the program that the blocks run, by its name `bidi` and by the variable BIDI. Lines that build a program, check the
repository or run a test suite are left out. A block that needs a file or a package that is not here is not run, and a line says so.
Below a block, up to the next block or heading, each `text` block has to be among what was written or in a file that the block names.
A block in `rust` is the root file of crates/hello. A line is printed for each block that fails. The status is 1 if there is one.
"""
import contextlib
import os
import re
import shutil
import signal
import subprocess
import sys
import tempfile
from pathlib import Path

import options

ROOT = Path(__file__).resolve().parent.parent
HELLO = ROOT / "crates/hello/src/main.rt"
DOCUMENTS = ["README.md", "docs/TESTING.md", "docs/CHECKING.md"]
BUILDS = re.compile(r"\s*(python3 tools/unproved\.py|export BIDI=|rt |\.ci/run|.*-m pytest|.*node .*--test)")
# What a line needs, by a word in it: a program of the system, or a package of the Python or the Node that runs it.
NEEDS = {"jq": "jq", "curl": "curl", "ruby": "ruby", "websockets_client.py": "websockets", "ws_client.js": "ws"}
# `check` ends with status 1 if it reports a line, which is what the documents show.
STAND_IN = """#!/bin/sh
case "$1" in
check) {program} "$@"; status=$?; [ $status -le 1 ] || exit $status ;;
*) exec {program} "$@" ;;
esac
"""


def parts(text):
    """The headings, shell blocks and text blocks of a document: the number of the line, the kind, and what stands in a block."""
    number, kind, lines = 0, "", []
    for number, line in enumerate(text.splitlines(), 1):
        if line.startswith("```"):
            if kind:
                yield number - len(lines), kind, "\n".join(lines)
            kind, lines = ("" if kind else line[3:].strip() or "none"), []
        elif kind:
            lines.append(line)
        elif line.startswith("#"):
            yield number, "heading", ""


def lacking(block):
    """What a block needs that is not here, or nothing."""
    for file in re.findall(r"(?<![\w/.-])[\w./-]+\.(?:jsonl|log)\b", block):
        if not (ROOT / file).exists():
            return file
    for word, need in NEEDS.items():
        if re.search(rf"\b{re.escape(word)}\b", block) and not is_here(need):
            return need
    return None


def is_here(need):
    if need == "websockets":
        python = shutil.which("/usr/bin/python3") or sys.executable
        return subprocess.run([python, "-c", "import websockets"], capture_output=True).returncode == 0
    if need == "ws":
        paths = {**os.environ, "NODE_PATH": "/usr/share/nodejs"}
        return bool(shutil.which("node")) and not subprocess.run(["node", "-e", "require('ws')"], env=paths, capture_output=True).returncode
    return bool(shutil.which(need))


def run(block, environment):
    """The status of a block and what it wrote; what it started in the background is ended."""
    with tempfile.TemporaryFile() as written:
        streams = {"stdin": subprocess.DEVNULL, "stdout": written, "stderr": written}
        words = ["bash", "-e", "-o", "pipefail", "-c", block]
        with subprocess.Popen(words, cwd=ROOT, env=environment, start_new_session=True, **streams) as child:
            try:
                status = child.wait(timeout=120)
            except subprocess.TimeoutExpired:
                status = "none after 120 seconds"
            with contextlib.suppress(ProcessLookupError):
                os.killpg(child.pid, signal.SIGKILL)
        written.seek(0)
        return status, written.read().decode(errors="replace")


def document(name, environment):
    """Runs the blocks of a document, and gives how many and what was wrong."""
    count, told, written = 0, [], None
    for number, kind, text in parts((ROOT / name).read_text()):
        if kind == "heading":
            written = None
        elif kind == "sh":
            block, written = "\n".join(line for line in text.splitlines() if not BUILDS.match(line)).strip(), None
            if not block:
                continue
            if need := lacking(block):
                print(f"not run: {name}:{number}: {need} is not here")
                continue
            count += 1
            status, written = run(block, environment)
            if status:
                told.append(f"{name}:{number}: status {status}: {written.strip()[-300:]}")
            for file in filter(os.path.isfile, (str(ROOT / word) for word in re.findall(r"[\w./-]+", block))):
                written += "\n" + Path(file).read_text(errors="replace")
        elif kind == "rust" and text != HELLO.read_text().rstrip("\n"):
            told.append(f"{name}:{number}: this is not {HELLO.relative_to(ROOT)}")
        elif kind == "text" and written is not None and text not in written:
            told.append(f"{name}:{number}: this is not what the block above writes")
    return count, told


def main():
    asked = options.program_and_names(__doc__, "DOCUMENT")
    program, names = os.path.abspath(asked.program), asked.names or [it for it in DOCUMENTS if (ROOT / it).exists()]
    with tempfile.TemporaryDirectory() as folder:
        stand_in = Path(folder) / "bidi"
        stand_in.write_text(STAND_IN.format(program=f"'{program}'"))
        stand_in.chmod(0o755)
        environment = {**os.environ, "BIDI": str(stand_in), "PATH": f"{folder}:{os.environ['PATH']}"}
        runs = [document(name, environment) for name in names]
    told = [line for _, lines in runs for line in lines]
    print(*told, f"blocks: {sum(count for count, _ in runs)} run, {len(told)} problems", sep="\n")
    return 1 if told else 0


sys.exit(main())
