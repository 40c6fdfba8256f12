#!/usr/bin/env python3
"""Compares numbers in documents with the source: limits.py

Each row of the tables of limits in docs/FORMATS.md has to be in the first table below, with the constants that its numbers are. The
second table has sentences of other documents. A line is printed for each difference, then a count; the status is 1 if there is one.
"""
import re
import sys

import options
import sources

FORMATS = (sources.ROOT / "docs/FORMATS.md").read_text()
# The first words of a row, and for each of its numbers the file and the constant, or what else gives the number.
LIMITS = {
    "bytes of a command": ["bidi_shape/members MAX_BYTES"],
    "levels of `any`": ["bidi_shape/members MAX_LEVELS"],
    "open connections of clients": ["bidi_sessions/connections MOST_CONNECTIONS"],
    "active sessions": ["bidi_active/sessions MOST_SESSIONS"],
    "live subscriptions of a session": ["bidi_remote/session/subscribe MOST_SUBSCRIPTIONS"],
    "live contexts": ["bidi_contexts/limits MOST_CONTEXTS"],
    "user contexts other than `default`": ["bidi_contexts/users MOST_USERS"],
    "levels of nested contexts": ["bidi_contexts/limits LOWEST_LEVEL"],
    "history entries of a context": ["bidi_contexts/session_history MOST_ENTRIES"],
    "handles of a realm": ["bidi_browser/scripts MOST_HANDLES"],
    "a resolved argument or `this`": ["bidi_shape/members MAX_LEVELS", "bidi_shape/members MAX_BYTES"],
    "rows of the script table": ["bidi_browser/script_table MOST_ROWS"],
    "levels of a thrown value": ["bidi_shape/members MAX_LEVELS less 1"],
    "waiting log entries of a session": ["bidi_active/log_buffer MOST_MISSED"],
    "pending commands of a local end": ["bidi_local/local_end MOST_PENDING"],
    "refused commands whose ids": ["bidi_why/conversation MOST_REFUSED"],
    "causes in a summary of `check`": ["bidi_why/counting MOST_CAUSES", "bidi_why/counting LONGEST_CAUSE"],
    "steps of a remote end": ["bidi_remote/remote_end MOST_STEPS"],
    "bytes of an input line": ["bidi_lines/line_reader LONGEST_LINE"],
    "connections in all": ["bidi_host_loop/manners MOST_CONNECTIONS"],
    "open connections of pages": ["bidi_host_loop/arrivals MOST_PAGES"],
    "bytes of a request head": ["bidi_requests/asking LONGEST_HEAD", "bidi_requests/fields MOST_FIELDS"],
    "seconds for a handshake": ["bidi_host_loop/clock PATIENCE", "bidi_host_loop/clock LINGER"],
    "bytes of a frame; of a message": ["16777216", "67108864"],  # those of the kit's WebSocket by default
    "bytes that wait for one reader": ["bidi_peer/peer MOST_WAITING"],
    "memory for the messages": ["1073741824"],  # an option of the command line
}
# A document, a sentence of it, and the constant or the text of the source that has its number.
SENTENCES = [
    ("docs/THEOREMS.md", "At most {} steps are taken", "bidi_remote/remote_end MOST_STEPS"),
    ("docs/EVIDENCE.md", "For {} random plays", ("tools/scripted_plays.py", r'"--count", type=int, default=(\d+)')),
    ("docs/EVIDENCE.md", "for {} texts", ("tools/gate.py", r"json_reasons.py \{BIDI\} (\d+)")),
    ("docs/EVIDENCE.md", "has {} random conversations", ("tools/random_scripts.py", r'"--count", type=int, default=(\d+)')),
    ("docs/EVIDENCE.md", "reduces {} random plays", ("examples/clients/reduced_plays.py", r"COUNT = .* else (\d+)")),
]
TABLES = re.compile(r"^\| what \| limit \| if exceeded \|\n\|[-|]+\|\n((?:\|.*\n)+)", re.M)


def value(name):
    """The number of a constant of the code, or the number itself."""
    if name.isdigit():
        return int(name)
    place, constant, *less = name.split(maxsplit=2)
    crate, _, file = place.partition("/")
    text = sources.text_of(sources.ROOT / "crates" / crate / "src" / f"{file}.rt")
    found = re.search(rf"const {constant}: \w+ = ([\d_ <*]+);", text)
    if not found:
        raise SystemExit(f"limits: {crate}/src/{file}.rt has no {constant} that is a number")
    return eval(found[1]) - (int(less[0].removeprefix("less ")) if less else 0)  # digits, `_`, `<<` and `*` alone


def numbers(cell):
    """The numbers of a cell, with MiB as bytes."""
    return [int(number.replace(",", "")) << (20 if unit else 0) for number, unit in re.findall(r"(\d[\d,]*\d|\d)( MiB)?", cell)]


def wrong_sentences():
    """The sentences of documents whose number is not that of the source."""
    for document, sentence, source in SENTENCES:
        if isinstance(source, str):
            number = value(source)
        else:
            number = int(re.search(source[1], sources.text_of(sources.ROOT / source[0]))[1])
        if sentence.format(f"{number:,}") not in sources.text_of(sources.ROOT / document):
            yield f"{document}: not there: {sentence.format(f'{number:,}')}"


def main():
    options.parser(__doc__).parse_args()
    rows = [line.split(" | ") for table in TABLES.findall(FORMATS) for line in table.splitlines()]
    told, used = [], set()
    for what, cell, *_ in ((row[0].removeprefix("| "), *row[1:]) for row in rows):
        name = next((it for it in LIMITS if what.startswith(it)), None)
        used.add(name)
        if not name:
            told.append(f"{what}: not in the table of this script")
        elif numbers(cell) != (wanted := [value(it) for it in LIMITS[name]]):
            told.append(f"{what}: FORMATS.md has {cell}, the code {', '.join(f'{it:,}' for it in wanted)}")
    told += [f"{name}: no row of FORMATS.md" for name in LIMITS if name not in used]
    told += wrong_sentences()
    print(*told, f"limits: {len(rows)} rows, {len(SENTENCES)} sentences, {len(told)} differences", sep="\n")
    return 1 if told else 0


sys.exit(main())
