#!/usr/bin/env python3
"""Keeps the copy of rules/draft.cddl that a test reads.

    grammars.py --write  writes crates/test_loader/src/draft.rt
    grammars.py --check  ends with status 1 if it is another text
"""
import sys
from pathlib import Path

import options

ROOT = Path(__file__).resolve().parent.parent
RULES, COPY = ROOT / "rules/draft.cddl", ROOT / "crates/test_loader/src/draft.rt"


def main():
    mode = options.one_of(__doc__, "write", "check")
    copy = f'//! The grammar of `rules/draft.cddl`.\npub const DRAFT: &str = r#"\n{RULES.read_text()}"#;\n'
    if mode == "write":
        COPY.write_text(copy)
    elif mode == "check" and COPY.read_text() != copy:
        sys.exit(f"{COPY.relative_to(ROOT)} is not {RULES.relative_to(ROOT)}: run grammars.py --write")
    elif mode is None:
        print(copy, end="")


main()
