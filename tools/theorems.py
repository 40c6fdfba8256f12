#!/usr/bin/env python3
"""Keeps what docs/THEOREMS.md quotes from the source word for word.

    theorems.py --write      fills in each quote
    theorems.py --check      ends with status 1 if one of them differs, but for line breaks, or an edit that is named does not stand where
                             the page says
    theorems.py --show TEXT  prints one quote

A quote is a block whose fence says what stands in it: `rust CALL: CLAUSE, ..` for clauses of a public call, `agda NAME, ..` for
definitions. A name may have its file or crate in front, `Plays.StopsAt` or `bidi_play.play`, and has to be the only one.
The edits are the names in the table under "Wrong bodies"; those in bold are in the folders `must-fail` that the gate tries.
"""
import re
import sys
import textwrap

import options
import sources

PAGE = sources.ROOT / "docs/THEOREMS.md"
QUOTE = re.compile(r"^```(rust|agda) (\S[^\n]*)\n(.*?)^```$", re.M | re.S)


def only(name, found):
    if len(found) != 1:
        places = ", ".join(str(it.path.relative_to(sources.ROOT)) for it in found) or "none"
        sys.exit(f"theorems: {name} has to be one of the source: {places}")
    return found[0]


def call(name):
    crate, _, title = name.rpartition(".")
    every = [it for place in sources.libraries() for it in sources.calls(place)]
    return only(name, [it for it in every if it.title == title and it.name and crate in ("", it.crate)])


def definition(name):
    *places, last = name.split(".")
    every = [it for place in sources.libraries() for it in sources.definitions(place)]
    return only(name, [it for it in every if it.name == last and all(p in (it.crate, *it.module.split(".")) for p in places)])


def commented(says, mark, text):
    """A statement below its sentence, in lines that fit a page."""
    return "\n".join([*(f"{mark} {line}" for line in textwrap.wrap(says, 110)), text])


def quote(kind, what):
    """What stands in a block: the file, then the statements with their sentences."""
    if kind == "agda":
        parts, path = [], None
        for it in map(definition, re.split(r", *", what.strip())):
            parts += [""] if parts else []
            parts += [f"-- {it.path.relative_to(sources.ROOT)}"] if it.path != path else []
            parts.append(commented(it.says, "--", it.text))
            path = it.path
        return "\n".join(parts) + "\n"
    name, _, clauses = what.rpartition(": ")
    it = call(name or what)
    wanted = re.split(r", *", clauses.strip()) if name else [clause.name for clause in it.clauses]
    by_name = {clause.name: clause for clause in it.clauses}
    if lacking := [one for one in wanted if one not in by_name]:
        sys.exit(f"theorems: {name} has no clause {', '.join(lacking)}")
    indent = re.compile(r"(?m)^ {8}" if it.owner else r"(?m)^ {4}")
    texts = [commented(by_name[one].says, "//", indent.sub("", by_name[one].text)) for one in wanted]
    return "\n".join([f"// {it.path.relative_to(sources.ROOT)}: {it.title}", *texts]) + "\n"


def made(page):
    return QUOTE.sub(lambda m: f"```{m[1]} {m[2]}\n{quote(m[1], m[2])}```", page)


def wrong_edits(page):
    """What is wrong with the edits that the page names: one is nowhere, or those in bold are not those of the gate."""
    gate, others = ({path.stem for path in sources.ROOT.glob(place)} for place in ("crates/*/must-fail/*.edit", "tools/edits/*/*.edit"))
    table = re.search(r"^## Wrong bodies\n(.*?)(?=^## |\Z)", page, re.M | re.S)[1]
    cells = "".join(line.rsplit("|", 2)[1] for line in table.splitlines()[1:] if line.startswith("| "))
    named, bold = set(re.findall(r"`(\w+)`", cells)), set(re.findall(r"\*\*`(\w+)`\*\*", cells))
    nowhere = [f"the edit {name} is nowhere" for name in sorted(named - gate - others)]
    return nowhere + [f"the gate tries {name}, or bold says so wrongly" for name in sorted(bold ^ gate)]


def main():
    parser = options.parser(__doc__)
    mode = parser.add_mutually_exclusive_group(required=True)
    for name in ("--write", "--check"):
        mode.add_argument(name, action="store_true")
    mode.add_argument("--show", metavar="TEXT")
    asked = parser.parse_args()
    if what := asked.show:
        print(quote("rust" if re.search(r": |::|^[a-z_]+$", what) else "agda", what), end="")
        return
    page = PAGE.read_text()
    right = made(page)
    if asked.write:
        PAGE.write_text(right)
        return
    told = wrong_edits(page)
    for mine, source in zip(re.split(r"\n(?=```)", page), re.split(r"\n(?=```)", right)):
        if mine.split() != source.split():
            told.append(f"not as in the source: {mine.splitlines()[0]}")
    print(*(f"docs/THEOREMS.md: {it}" for it in told), sep="\n", end="\n" if told else "")
    sys.exit(1 if told else 0)


main()
