#!/usr/bin/env python3
"""Draws the crates of this repository, from crates.txt and the first line of each root file: their groups, and the layer of each.
The group Tests is left out.

python3 tools/picture.py           prints the picture
python3 tools/picture.py --write   puts it into docs/ARCHITECTURE.md, in place of the first text block there
python3 tools/picture.py --check   ends with status 1 where that block is another picture
"""
import re
import sys
from pathlib import Path

import options

TOP = Path(__file__).resolve().parent.parent
PAGE = TOP / "docs" / "ARCHITECTURE.md"
BLOCK = re.compile(r"(?<=^```text\n).*?(?=^```$)", re.M | re.S)


def read_crates():
    """Each crate with those of this repository that its line names."""
    lines = [line.split("#")[0] for line in (TOP / "crates.txt").read_text().splitlines()]
    parts = [line.split(":") for line in lines if ":" in line]
    named = {head.split()[0]: rest.split() for head, rest in parts}
    return {crate: [it for it in rest if it in named] for crate, rest in named.items()}


def below(crates, crate):
    """All that a crate stands on, through others too."""
    direct = set(crates[crate])
    return direct.union(*(below(crates, it) for it in direct))


def layer(crates, crate):
    """One more than the highest layer of those that it stands on."""
    return 1 + max((layer(crates, it) for it in crates[crate]), default=0)


def direct(crates, crate):
    """Those that it stands on and reaches through no other, the highest first."""
    through = set().union(*(below(crates, it) for it in crates[crate]))
    kept = [it for it in crates[crate] if it not in through]
    return sorted(kept, key=lambda it: (-layer(crates, it), it))


def what_it_has(crate):
    """The first sentence of the root file, as it stands on the first line."""
    source = TOP / "crates" / crate / "src"
    roots = [it for it in (source / "lib.rt", source / "main.rt") if it.exists()]
    first = roots[0].read_text().splitlines()[0]
    text = re.fullmatch(r"//! (.+?)\.( .*)?", first)
    if text is None:
        sys.exit(f"{roots[0]}: the first line holds no whole sentence")
    return re.sub(r"[`\[\]]", "", text[1])


def row(crates, crate):
    """A crate's line, in columns that are as wide as they have to be."""
    width = max(map(len, crates))
    room = max(len(what_it_has(it)) for it in crates)
    on = ", ".join(direct(crates, crate))
    text = f"{layer(crates, crate):2}  {crate:{width}}  {what_it_has(crate):{room}}"
    return (f"{text}  on: {on}" if on else text.rstrip()) + "\n"


def groups():
    """The headings of crates.txt, in order, each with its crates."""
    found = []
    for line in (TOP / "crates.txt").read_text().splitlines():
        if line.startswith("#"):
            found.append((line[1:].strip(), []))
        elif ":" in line:
            found[-1][1].append(line.split(":")[0].split()[0])
    return found


def picture():
    """The groups of crates.txt but that of the tests, each with its crates."""
    crates = read_crates()
    parts = ["".join([f"{heading}\n", *(row(crates, it) for it in own)]) for heading, own in groups() if heading != "Tests"]
    return "\n".join(parts)


def main():
    mode, page = options.one_of(__doc__, "write", "check"), PAGE.read_text()
    if mode == "write":
        PAGE.write_text(BLOCK.sub(lambda _: picture(), page, count=1))
    elif mode == "check":
        sys.exit("docs/ARCHITECTURE.md: another picture" if BLOCK.search(page)[0] != picture() else 0)
    else:
        print(picture(), end="")


main()
