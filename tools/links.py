#!/usr/bin/env python3
"""Says which links and paths of the documents lead nowhere: links.py

- A link has to lead to a file of this repository and, behind `#`, to one of its headings. Links to other sites are not tried.
- A word in backquotes that looks like the path of a file of this repository has to be one, as `tools/links.py`, or that of a file of a
  crate, as `bidi_play/lines.rt`. A path may have `*`, or NAME for any name. What a build writes into out/ is left out.
- A line of an example that is named by its number has to have the method that is named.

The status is 1 if something leads nowhere.
"""
import re
import sys
from functools import cache
from pathlib import Path

import options

ROOT = Path(__file__).resolve().parent.parent
LINK = re.compile(r"\]\(([^)\s]+)\)")
# A path begins with a folder at the top of the repository, and has no blank and no signs of a shell.
PATH = re.compile(r"`((?:crates|docs|examples|tools|\.ci)/[\w./*+-]+)`")
OF_CRATE = re.compile(r"`((?:bidi|test|trial)\w*)/(?:src/)?([\w/]+\.rt)`")
LINE = re.compile(r"Line (\d+) of `([^`]+)` is a `([^`]+)`")
FENCE = re.compile(r"^```.*?^```$", re.M | re.S)


@cache
def headings(path):
    """The headings of a document, as a link names them."""
    found = re.findall(r"^#+ (.*)$", FENCE.sub("", path.read_text()), re.M)
    plain = [re.sub(r"\[([^\]]*)\]\([^)]*\)", r"\1", it).replace("`", "") for it in found]
    return {re.sub(r"[^\w\- ]", "", it.lower()).replace(" ", "-") for it in plain}


def leads_nowhere(document, link):
    """Why a link of a document leads nowhere, or None."""
    place, _, heading = link.partition("#")
    target = (document.parent / place).resolve() if place else document
    if not target.exists():
        return "no such file"
    if heading and target.suffix == ".md" and heading not in headings(target):
        return "no such heading"
    return None


def faults(document):
    """What is wrong with the links and paths of a document."""
    text = FENCE.sub("", document.read_text())
    for link in LINK.findall(text):
        if not re.match(r"[a-z]+:", link) and (why := leads_nowhere(document, link)):
            yield f"{link}: {why}"
    for path in PATH.findall(text):
        if "/out/" not in path and not any(ROOT.glob(path.rstrip("/").replace("NAME", "*"))):
            yield f"{path}: no such file"
    for crate, path in OF_CRATE.findall(text):
        if not (ROOT / "crates" / crate / "src" / path).exists():
            yield f"{crate}/{path}: no such file"
    for number, path, method in LINE.findall(text):
        if method not in (ROOT / path).read_text().splitlines()[int(number) - 1]:
            yield f"{path}: line {number} has no {method}"


def main():
    options.parser(__doc__).parse_args()
    documents = sorted(path for place in ("*.md", "docs/*.md", "examples/**/*.md") for path in ROOT.glob(place))
    wrong = [f"{path.relative_to(ROOT)}: {fault}" for path in documents for fault in faults(path)]
    print(*wrong, f"links: {len(documents)} documents, {len(wrong)} lead nowhere", sep="\n")
    return 1 if wrong else 0


if __name__ == "__main__":
    sys.exit(main())
