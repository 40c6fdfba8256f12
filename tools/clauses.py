#!/usr/bin/env python3
"""Makes docs/CLAUSES.md: each public call of each library, with the sentence above each of its clauses.

    clauses.py            prints the page
    clauses.py --write    writes it
    clauses.py --check    ends with status 1 if the page is another one
    clauses.py --missing  lists each clause without a sentence, and ends with status 1 if there is one
"""
import sys

import options
import sources

HEAD = """\
# Clauses

Each public call of each library, and what its contract says in English. `tools/clauses.py` makes this page: the sentence is the
comment above the clause in the source.

- Every call returns and does nothing undefined, if its `requires` hold. A call without a clause promises no more.
- `requires` is what the caller has to show. `ensures` is what the caller then gets; the clause's name follows.
- `sum` is a checksum of the clause, so that a review sees a clause that changes under its sentence.
- `always` holds for each value of the type. `has` is a value of the logic that each type with the trait has, and that the clauses
  of the trait speak of.
"""


def rows(call):
    for clause in call.clauses or [None]:
        kind = f"{clause.kind} {clause.name}".strip() if clause else ""
        yield call, f"`{kind}`" if kind else "", clause.says if clause else "", clause


def table(crate):
    calls = sources.calls(crate)
    lines = [f"\n## {crate}\n", f"{sources.head_of(crate)}\n"]
    if calls:
        lines += ["| call | clause | says | sum | file |", "|---|---|---|---|---|"]
    for call in calls:
        for _, kind, says, clause in rows(call):
            mark = sources.checksum(clause.text) if clause else ""
            lines.append(f"| `{call.title}` | {kind} | {sources.cell(says)} | {mark} | {sources.link(call.path)} |")
    return lines


def missing():
    every = [row for crate in sources.libraries() for call in sources.calls(crate) for row in rows(call)]
    return [(call, kind) for call, kind, says, clause in every if clause and not says]


def main():
    mode = options.one_of(__doc__, "write", "check", "missing")
    if mode == "missing":
        found = missing()
        for call, kind in found:
            print(f"{call.path.relative_to(sources.ROOT)}: {call.title}: {kind}")
        sys.exit(f"clauses: {len(found)} without a sentence" if found else 0)
    sources.page("CLAUSES.md", "\n".join([HEAD, *(line for crate in sources.libraries() for line in table(crate))]) + "\n", mode)


main()
