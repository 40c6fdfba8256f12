#!/usr/bin/env python3
"""Tries the edits of tools/edits, which the gate leaves out: edits.py [--check] [CRATE ..]

The prover must refuse each of them. They have the form of the edits in crates/*/must-fail, in a folder for each crate. Without
names, those of all crates are tried. `rt must-fail` tries them over a linked copy of this checkout, so what a check has kept in
out/ is used, and the checkout stays as it is. The status is 1 if an edit is not refused.

With --check nothing is proved. The script says which edits, those of the gate included, no longer change their file, and the
status is then 1.
"""
import os
import shutil
import subprocess
import sys
import tempfile
from pathlib import Path

import options

TOP = Path(__file__).resolve().parent.parent
EDITS = TOP / "tools" / "edits"


def fault(edit, crate):
    """Why an edit changes nothing, or None. Each `old:` text has to stand once in the file of the `file:` line above it."""
    file, text, old, changes = None, "", None, 0
    for line in edit.read_text().splitlines():
        if line.startswith("file: "):
            file = TOP / "crates" / crate / line.removeprefix("file: ")
            if not file.is_file():
                return f"there is no {file.relative_to(TOP)}"
            text = file.read_text()
        elif line.startswith("old: "):
            old = line.removeprefix("old: ")
            if text.count(old) != 1:
                return f"{text.count(old)} times in its file: {old.strip()}"
        elif line.startswith("new:") and old is not None:
            changes += line.removeprefix("new:").removeprefix(" ") != old
            old = None
    return None if changes else "it changes nothing"


def check(crates):
    """Says which edits of these crates no longer change their file, and gives 1 if there is one."""
    wrong = 0
    for crate in crates:
        for edit in sorted([*EDITS.glob(f"{crate}/*.edit"), *TOP.glob(f"crates/{crate}/must-fail/*.edit")]):
            why = fault(edit, crate)
            if why:
                wrong = 1
                print(f"{edit.relative_to(TOP)}: {why}")
    return wrong


def prove(crates):
    """Has the prover try the edits of these crates, and gives the status of `rt must-fail`."""
    with tempfile.TemporaryDirectory(dir=TOP.parent, prefix="edits-") as room:
        copy = Path(room) / TOP.name
        shutil.copytree(TOP, copy, copy_function=os.link, symlinks=True)
        for crate in crates:
            place = copy / "crates" / crate / "must-fail"
            shutil.rmtree(place, ignore_errors=True)
            shutil.copytree(EDITS / crate, place)
        return subprocess.run(["rt", "must-fail", *crates], cwd=copy).returncode


def main():
    every = {it.name for it in EDITS.iterdir() if it.is_dir()}
    gates = {it.parent.name for it in TOP.glob("crates/*/must-fail")}
    parser = options.parser(__doc__)
    parser.add_argument("--check", action="store_true", help="say which edits no longer change their file")
    parser.add_argument("crates", metavar="CRATE", nargs="*")
    asked = parser.parse_args()
    known = every | gates if asked.check else every
    unknown = sorted({*asked.crates} - known)
    if unknown:
        parser.error(f"no edits of {', '.join(unknown)}")
    return (check if asked.check else prove)(asked.crates or sorted(known))


if __name__ == "__main__":
    sys.exit(main())
