#!/usr/bin/env python3
"""Makes docs/DEFINITIONS.md: each public definition of each library, with the sentence above it.

    definitions.py            prints the page
    definitions.py --write    writes it
    definitions.py --check    ends with status 1 if the page is another one
    definitions.py --missing  lists each definition without a sentence that a public clause names, and each file of definitions
                              without a line that gives its subject; ends with status 1 if there is one
"""
import sys
from itertools import groupby

import options
import sources

HEAD = """\
# Definitions

What contracts compare the code with. `tools/definitions.py` makes this page from the files in `specs/`: the sentence is the comment
above the definition, and the line below a file's name is the comment at its top, with the source in a standard if it has one.
"Own" is a choice of this project. `sum` is a checksum of the definition. [ARCHITECTURE.md](ARCHITECTURE.md) explains the words, [THEOREMS.md](THEOREMS.md) the notation.
"""


def table(path, found):
    lines = [f"\n### {sources.link(path)}\n", f"{sources.header(path)}\n", "| definition | says | sum |", "|---|---|---|"]
    for it in found:
        says = f"{it.says.rstrip('.')}. Example: {it.example}" if it.example else it.says
        lines.append(f"| `{it.name}` | {sources.cell(says)} | {sources.checksum(it.text)} |")
    return lines


def under(call, clause):
    """The definitions on which a clause of a public call rests: those that it names, those that they name, and so on."""
    [first] = [it for place in sources.libraries() for it in sources.calls(place) if f"{it.crate}.{it.title}" == call and it.name]
    todo, found = [(first.path, first.crate, "", it.text) for it in first.clauses if it.name == clause], {}
    while todo:
        path, crate, module, text = todo.pop()
        for it in sources.named(path, text, crate, module):
            if (it.path, it.name) not in found:
                found[it.path, it.name] = it
                todo.append((it.path, it.crate, it.module, it.text))
    return found.values()


def headline():
    """The files in which the definitions under the headline stand."""
    found = under("bidi_play.play", "ok")
    count = len({it.path for it in found})
    lines = ["\n## Under the headline\n", f"The clause `ok` of `play` rests on {len(found)} definitions in {count} files.\n"]
    lines += ["| crate | files in `specs/` |", "|---|---|"]
    for crate in reversed(sources.libraries()):
        paths = sorted({it.path for it in found if it.crate == crate})
        cells = [f"[{path.stem}](../{path.relative_to(sources.ROOT)})" for path in paths]
        lines += [f"| `{crate}` | {', '.join(cells)} |"] if cells else []
    return lines


def made():
    lines = [HEAD, *headline()]
    for crate in sources.libraries():
        found = sources.definitions(crate)
        if found:
            lines += [f"\n## {crate}\n", sources.head_of(crate)]
        for path, group in groupby(found, key=lambda it: it.path):
            lines += table(path, group)
    return "\n".join(lines) + "\n"


def missing():
    for it in sources.cited():
        if not it.says:
            yield f"{it.path.relative_to(sources.ROOT)}: {it.name}"
    for path in sorted({it.path for crate in sources.libraries() for it in sources.definitions(crate)}):
        if not sources.header(path):
            yield f"{path.relative_to(sources.ROOT)}: the file's subject"


def main():
    mode = options.one_of(__doc__, "write", "check", "missing")
    if mode == "missing":
        found = list(missing())
        print(*found, sep="\n")
        sys.exit(f"definitions: {len(found)} without a sentence" if found else 0)
    sources.page("DEFINITIONS.md", made(), mode)


main()
