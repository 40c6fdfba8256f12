#!/usr/bin/env python3
"""Compares why texts are not read as JSON with a second reading of RFC 8259: json_reasons.py BIDI [NUMBER [SEED]]

`check --from remote --why` reads NUMBER texts, most of them JSON with a few bytes changed. The reading below descends into a text,
where the program goes from byte to byte. What Python's own `json` refuses has to be refused here, too. A line is printed for each
text with another reason. The status is 1 if there is one.
"""
import json
import random
import re
import subprocess
import sys

import options

MOST_LEVELS = 127
BLANKS = b" \t\n\r"
WORDS = {b"t": b"true", b"f": b"false", b"n": b"null"}


class Fault(Exception):
    """At this place, counted from 0, something else is wanted."""


class Reader:
    """Reads one JSON text, and keeps what a reader may refuse: levels, surrogates and numbers."""

    def __init__(self, text):
        self.text, self.at, self.levels, self.lone, self.large = text, 0, 0, None, None

    def peek(self):
        return self.text[self.at : self.at + 1]

    def blanks(self):
        while self.peek() and self.peek() in BLANKS:
            self.at += 1

    def want(self, allowed, words):
        """Takes a byte of those that are allowed."""
        if not self.peek() or self.peek() not in allowed:
            raise Fault(self.at, words)
        self.at += 1

    def document(self):
        self.blanks()
        self.value(0, "a value", "the end")
        self.blanks()
        if self.peek():
            raise Fault(self.at, "the end")

    def value(self, levels, words, after):
        """`after` is what may follow the value."""
        first = self.peek()
        if first == b'"':
            self.string()
        elif first in WORDS and first:
            self.word(WORDS[first])
        elif first == b"[":
            self.array(levels + 1)
        elif first == b"{":
            self.object(levels + 1)
        elif re.match(rb"[-0-9]", first):
            self.number()
        else:
            raise Fault(self.at, words)

    def word(self, word):
        for letter in word:
            self.want(bytes([letter]), f"the rest of {word.decode()}")

    def digits(self):
        self.want(b"0123456789", "a digit")
        while re.match(rb"[0-9]", self.peek()):
            self.at += 1

    def number(self):
        start = self.at
        if self.peek() == b"-":
            self.at += 1
        if self.peek() == b"0":
            self.at += 1
        else:
            self.digits()
        if self.peek() == b".":
            self.at += 1
            self.digits()
        if self.peek() and self.peek() in b"eE":
            self.at += 1
            if self.peek() and self.peek() in b"+-":
                self.at += 1
            self.digits()
        if self.large is None and abs(float(self.text[start : self.at])) == float("inf"):
            self.large = start

    def string(self):
        self.at += 1
        high = None  # where a first half of a pair is that waits for its second half
        while True:
            byte = self.peek()
            if not byte or byte < b" ":
                raise Fault(self.at, "the rest of a string")
            start = self.at
            unit = self.escape() if byte == b"\\" else None
            if byte != b"\\":
                self.at += 1
            is_low = unit is not None and 0xDC00 <= unit < 0xE000
            if self.lone is None and (high is not None) != is_low:
                self.lone = start if high is None else high
            high = start if unit is not None and 0xD800 <= unit < 0xDC00 else None
            if byte == b'"':
                return

    def escape(self):
        """The code unit of an escape, if it is written by digits."""
        self.at += 1
        if self.peek() != b"u":
            self.want(b'"\\/bfnrt', "the rest of an escape")
            return None
        self.at += 1
        for _ in range(4):
            self.want(b"0123456789abcdefABCDEF", "a hexadecimal digit")
        return int(self.text[self.at - 4 : self.at], 16)

    def array(self, levels):
        self.levels = max(self.levels, levels)
        self.at += 1
        self.blanks()
        words = 'a value or "]"'
        if self.peek() == b"]":
            self.at += 1
            return
        while True:
            self.value(levels, words, '"," or "]"')
            self.blanks()
            self.want(b",]", '"," or "]"')
            if self.text[self.at - 1 : self.at] == b"]":
                return
            self.blanks()
            words = "a value"

    def object(self, levels):
        self.levels = max(self.levels, levels)
        self.at += 1
        self.blanks()
        words = 'a name or "}"'
        if self.peek() == b"}":
            self.at += 1
            return
        while True:
            if self.peek() != b'"':
                raise Fault(self.at, words)
            self.string()
            self.blanks()
            self.want(b":", '":"')
            self.blanks()
            self.value(levels, "a value", '"," or "}"')
            self.blanks()
            self.want(b",}", '"," or "}"')
            if self.text[self.at - 1 : self.at] == b"}":
                return
            self.blanks()
            words = "a name"


def reason(text):
    """Why a text is not read, or None."""
    reader = Reader(text)
    try:
        reader.document()
    except Fault as fault:
        place, words = fault.args
        return f"not json: wants {words} at byte {place + 1}"
    if reader.levels > MOST_LEVELS:
        return f"{reader.levels} levels of nesting, at most {MOST_LEVELS}"
    if reader.lone is not None:
        return f"lone surrogate at byte {reader.lone + 1}"
    if reader.large is not None:
        return f"number out of range at byte {reader.large + 1}"
    return None


def is_json(text):
    """Whether Python takes the text, which reads three words that are no JSON."""
    try:
        json.loads(text, parse_constant=lambda word: 1 / 0)
    except (ValueError, ZeroDivisionError):
        return False
    return True


def some_value(rng, levels):
    kind = rng.randrange(9 if levels else 6)
    if kind == 0:
        return rng.choice([b"true", b"false", b"null"])
    if kind in (1, 2):
        return rng.choice([b"0", b"-0", b"12", b"-3.25", b"1e5", b"1E+400", b"2e-999", b"-1e309", b"9" * 310, b"1.7e308", b"1.8e308"])
    if kind in (3, 4, 5):
        return some_string(rng)
    blank = rng.choice([b"", b"", b" ", b"\t", b"\r"])
    if kind in (6, 7):
        return b"[" + blank + (blank + b",").join(some_value(rng, levels - 1) for _ in range(rng.randrange(4))) + blank + b"]"
    members = (some_string(rng) + blank + b":" + some_value(rng, levels - 1) for _ in range(rng.randrange(4)))
    return b"{" + blank + b",".join(members) + blank + b"}"


def some_string(rng):
    parts = [b"a", b"e1", b"[", b"{", b"-7e999", b"\\n", b"\\\\", b"\\\"", b"\\/", b"\\u0041", b"\\ud83d", b"\\uDE00", b"\\ud83d\\ude00",
             b"\\uD7ff", b"\\ue000", b"u", "é".encode(), "😀".encode()]
    return b'"' + b"".join(rng.choice(parts) for _ in range(rng.randrange(5))) + b'"'


def some_text(rng):
    """A text of characters without a line feed."""
    deep = rng.randrange(40) == 0 and rng.randrange(120, 140)
    text = b"[" * deep + some_value(rng, 3) + b"]" * deep if deep else rng.choice([b"", b" "]) + some_value(rng, 4)
    for _ in range(rng.choice([0, 0, 1, 1, 2])):
        at = rng.randrange(len(text) + 1)
        what = rng.randrange(4)
        if what == 0:
            text = text[:at]
        elif what == 1:
            text = text[:at] + text[at + 1 :]
        else:
            byte = bytes([rng.choice(b'[]{},:"\\utfnre0159.-+ \t\x01x')])
            text = text[:at] + byte + text[at + what - 2 :]
    try:
        text.decode()
    except UnicodeDecodeError:
        return some_text(rng)
    return text


def main():
    parser = options.parser(__doc__)
    parser.add_argument("program", metavar="BIDI")
    parser.add_argument("number", metavar="NUMBER", nargs="?", type=int, default=20000)
    parser.add_argument("seed", metavar="SEED", nargs="?", type=int, default=1)
    asked = parser.parse_args()
    program, number, rng = asked.program, asked.number, random.Random(asked.seed)
    texts = [some_text(rng) for _ in range(number)]
    run = subprocess.run([program, "check", "--from", "remote", "--why", "-"], input=b"".join(text + b"\n" for text in texts), capture_output=True)
    told = dict(re.match(r"line (\d+): (.*)", line).groups() for line in run.stdout.decode().splitlines())
    wrong = unread = 0
    for place, text in enumerate(texts, 1):
        wants = reason(text)
        unread += wants is not None
        has = told.get(str(place), "nothing")
        is_told = has.startswith(("not json", "lone surrogate", "number out of range")) or " levels of nesting, at most 127" in has
        if (wants or "") != (has if is_told else "") or is_json(text) == (wants or "").startswith("not json"):
            wrong += 1
            print(f"{text!r}: wants {wants}, has {has}; json.loads takes it: {is_json(text)}")
    print(f"{number} texts, {unread} of them not read, {wrong} with another reason")
    sys.exit(1 if wrong else 0)


if __name__ == "__main__":
    main()
