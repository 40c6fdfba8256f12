"""Reads a recorded conversation of a client and a browser, in each form that docs/CHECKING.md names.

`messages` gives the messages of a log, and `exchanges` the commands among them, with their answers and events.

- lines that begin with `> ` for a message of the client or `< ` for one of the browser
- JSON lines: objects with `dir`, which is `sent` or `got`, and `text`
- the logs of geckodriver, Puppeteer, Playwright and chromedriver

The form need not be named, and any other line is skipped. If a log of geckodriver has several connections, only the first is read.
"""
import json
import math
import re
from dataclasses import dataclass, field
from typing import Optional

MOST = 9007199254740991  # the largest js-uint
MARKED = re.compile(r"([<>]) (.*)")
GECKODRIVER = re.compile(r".*WebDriverBiDiConnection ([0-9a-f-]+) (->|<-) (\{.*)")
PLAYWRIGHT = re.compile(r".*pw:protocol (SEND ►|◀ RECV) (\{.*\})(?: \+[0-9]+m?s)?")
PUPPETEER = re.compile(r".*webDriverBiDi:(?:(SEND) ►|RECV ◀)(.*)")
QUOTED = re.compile(r"""[^'"`]*(?:'(\{.*\})'|"(\{.*\})"|`(\{.*\})`)[^'"`]*""")
CHROMEDRIVER = re.compile(r"\[.* (?:COMMAND ForwardBidiCommand |Event: Runtime\.bindingCalled .*)\{")
ESCAPE = re.compile(r"\\(?:x([0-9A-Fa-f]{2})|u([0-9A-Fa-f]{4})|(.))")
ESCAPED = {"n": "\n", "r": "\r", "t": "\t", "b": "\b", "f": "\f", "v": "\v", "0": "\0"}


@dataclass(frozen=True)
class Number:
    """A number of JSON, as it is written."""

    text: str


def number(text):
    """Reads a number, or raises a ValueError if a 64-bit float cannot hold it."""
    if not math.isfinite(float(text)):
        raise ValueError("not a number of JSON")
    return Number(text)


DECODER = json.JSONDecoder(parse_float=number, parse_int=number, parse_constant=number)


def read(text):
    """Reads JSON, with its numbers as they are written; gives None if the text is not JSON."""
    try:
        value = DECODER.decode(text)
        written(value).encode()  # a lone surrogate is not JSON
        return value
    except (ValueError, RecursionError):
        return None


def written(value):
    """Writes JSON on one line."""
    if isinstance(value, Number):
        return value.text
    if isinstance(value, dict):
        return "{%s}" % ",".join([f"{written(name)}:{written(each)}" for name, each in value.items()])
    if isinstance(value, list):
        return "[%s]" % ",".join([written(each) for each in value])
    return json.dumps(value, ensure_ascii=False)


def unescaped(text):
    """The string that a literal of JavaScript stands for."""
    return ESCAPE.sub(lambda it: chr(int(it[1] or it[2], 16)) if it[1] or it[2] else ESCAPED.get(it[3], it[3]), text)


def of_json_line(line):
    """The messages of a JSON line."""
    value = read(line)
    if isinstance(value, dict) and value.get("dir") in ("sent", "got") and isinstance(value.get("text"), str):
        yield value["dir"] == "sent", value["text"]


def of_chromedriver(lines):
    """The messages of one record, whose other lines follow up to `}`."""
    rest = iter(lambda: next(lines, "}"), "}")
    value = read("\n".join(["{", *rest, "}"]))
    if not isinstance(value, dict):
        return
    for is_sent, message in [(True, value.get("bidiCommand")), (False, value.get("payload"))]:
        if is_sent or value.get("name") == "sendBidiResponse":
            message = read(message) if isinstance(message, str) else message
            if isinstance(message, dict):
                yield is_sent, written({name: each for name, each in message.items() if name != "goog:channel"})


def of_puppeteer(line, lines):
    """The messages of one record, which has a string on its first line or on the next."""
    sent, rest = PUPPETEER.fullmatch(line).groups()
    text = QUOTED.fullmatch(rest if "{" in rest else next(lines, ""))
    if text:
        yield bool(sent), unescaped(text[1] or text[2] or text[3])


def messages(text):
    """Yields the messages of a log: whether the client sent it, and its text."""
    lines, connection = iter([line.rstrip("\r") for line in text.split("\n")]), None
    for line in lines:
        if it := MARKED.fullmatch(line):
            yield it[1] == ">", it[2]
        elif line.startswith("{"):
            yield from of_json_line(line)
        elif it := GECKODRIVER.fullmatch(line):
            connection = connection or it[1]
            if it[1] == connection:
                yield it[2] == "->", it[3]
        elif it := PLAYWRIGHT.fullmatch(line):
            yield it[1].startswith("SEND"), it[2]
        elif PUPPETEER.fullmatch(line):
            yield from of_puppeteer(line, lines)
        elif CHROMEDRIVER.fullmatch(line):
            yield from of_chromedriver(lines)


@dataclass(eq=False)
class Exchange:
    """A command with its answer, and the events before and after the answer."""

    method: str
    params: dict
    answer: Optional[dict] = None
    before: list = field(default_factory=list)
    after: list = field(default_factory=list)

    @property
    def is_success(self):
        return not isinstance(self.answer.get("error"), str)

    @property
    def result(self):
        """The result of a command that succeeded, else an empty object."""
        return self.answer["result"] if self.is_success else {}

    @property

    def events(self):
        return self.before + self.after


def is_command(value):
    """Whether a row can match this message."""
    number = value.get("id")
    is_id = isinstance(number, Number) and number.text.isdigit() and int(number.text) <= MOST
    return is_id and isinstance(value.get("method"), str) and isinstance(value.get("params"), dict)


def is_answer(value):
    """Whether this message of a browser, which has the id of a command, answers it."""
    return isinstance(value.get("error"), str) or isinstance(value.get("result"), dict)


def exchanges(talk):
    """Lists the commands that have an answer, in the order of sending, and counts the others."""
    every, waiting, events, last = [], {}, [], None
    for is_sent, text in talk:
        value = read(text)
        if not isinstance(value, dict):
            continue
        if is_sent:
            last = None
            if is_command(value):
                waiting[value["id"]] = Exchange(value["method"], value["params"])
                every.append(waiting[value["id"]])
        elif isinstance(value.get("method"), str) and isinstance(value.get("params"), dict):
            (last.after if last else events).append({"method": value["method"], "params": value["params"]})
        elif isinstance(value.get("id"), Number) and value["id"] in waiting and is_answer(value):
            last = waiting.pop(value["id"])
            last.answer, last.before, events = value, events, []
    return [it for it in every if it.answer], len([it for it in every if not it.answer])


def text_in(value, *names):
    """The string at this place of an object, or None."""
    for name in names:
        value = value.get(name) if isinstance(value, dict) else None
    return value if isinstance(value, str) else None


def items(value, name):
    """The items of the array that is this property of an object, or none."""
    return value[name] if isinstance(value.get(name), list) else []
