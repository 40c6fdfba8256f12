#!/usr/bin/env python3
"""Makes page lines of a recorded conversation: rows_of_log.py LOG > answers.page

`bidi host --page answers.page` then answers a client as the browser of the log did. LOG has a form of docs/CHECKING.md; `-` is
standard input. It is the conversation of one connection, from its start.

The browser in memory answers by itself what it answers well. Every other command gets an `answer` row. Rows for the same params
are used up in the order of the log, and the last one stays. The events that came between a command and its reply are sent before
the reply, and those that came after it, up to the next command, after it.

- Scripts, commands that failed and commands that the profile lacks have rows.
- session.*, browsingContext.create and close, and browser.createUserContext and removeUserContext have no row if they succeeded,
  because the browser in memory keeps sessions, tabs and user contexts. If the log has an event with one of these that the
  browser in memory does not send, the next row sends it.
- browsingContext.activate, getTree, navigate and reload have no row if the browser in memory sends what the log has. So a
  navigation has a row if the log has other events with it, that of a new frame for example. The browser in memory does not see
  such a navigation: from then on, all navigations of this tab and the trees that show its new URL have rows.
- The ids of sessions, tabs, user contexts and realms that the browser in memory makes are replaced by its own. Other ids and times
  stay as in the log.
- The line `names` has the events and modules that the profile lacks and the client subscribed to or was sent.
- A sandbox and a `sourceURL` are left out of the params of a row, so that it also answers a host with --lenient.

A line on standard error counts the rows, the commands without one, and what was left out.
"""
import argparse
import re
import sys
from collections import Counter, defaultdict
from dataclasses import dataclass
from pathlib import Path

from logs import Exchange, Number, exchanges, items, messages, text_in, written

FORMATS = Path(__file__).resolve().parent.parent / "docs/FORMATS.md"
MOST_ROWS, MOST_BYTES = 1024, 1048576  # of a host; of a row
KEEPING = {"browsingContext.create", "browsingContext.close", "browser.createUserContext", "browser.removeUserContext"}
NAVIGATING = {"browsingContext.navigate", "browsingContext.reload", "browsingContext.traverseHistory"}
NAVIGATION_EVENTS = {"browsingContext.navigationStarted", "browsingContext.domContentLoaded", "browsingContext.load"}
TAB_EVENTS = {"browsingContext.contextCreated", "browsingContext.contextDestroyed"}
SOURCE_URL = re.compile(r"(.*?)\n*//# sourceURL=[^\n]*\n?", re.S)


class Fault(Exception):
    """A fault that ends the run, with its message."""


def first_tab(talk):
    """The context of the log that is the browser's first: the first that is named and that no command created."""
    created = {text_in(it.result, "context") for it in talk if it.method == "browsingContext.create"} - {None}
    for it in talk:
        places = [("context",), ("root",), ("target", "context")] if it.is_success else []
        named = [text_in(it.params, *place) for place in places]
        for event in it.events:
            if event["method"] == "browsingContext.contextCreated" and not event["params"].get("parent"):
                named.append(text_in(event["params"], "context"))
        if it.method == "browsingContext.getTree":
            named += [text_in(info, "context") for info in items(it.result, "contexts")]
        found = [name for name in named if name and name not in created]
        if found:
            return found[0]
    return None


# ---- the browser in memory

@dataclass(eq=False)
class Tab:
    """A tab of the browser in memory."""

    realm: str
    user: str
    url: str = "about:blank"
    is_followed: bool = True  # whether the browser in memory saw every navigation of the log


class Browser:
    """The browser in memory, as far as a conversation reaches."""

    def __init__(self, talk):
        self.made, self.ids = Counter(), {}  # how many ids of a kind there are, and an id of the log with that of the host
        self.tabs, self.users, self.realms = {}, ["default"], {}  # a realm of the log, and its tab
        self.add_tab(first_tab(talk), "default")
        events = [event for it in talk for event in it.events]
        beyond = {text_in(it["params"], "navigation") for it in events if it["method"] not in NAVIGATION_EVENTS}
        self.navigations = {text_in(it.result, "navigation") for it in talk if it.method in NAVIGATING} - beyond - {None}

    def counted(self, kind):
        """The next id of a kind; docs/FORMATS.md, "Ids"."""
        self.made[kind] += 1
        return f"00000000-{kind:04x}-8000-8000-{self.made[kind]:012x}"

    def add_tab(self, name, user):
        self.ids[name], self.tabs[name] = self.counted(2), Tab(self.counted(3), user)

    def tab_of(self, value, *names):
        """The tab whose context has its id at this place of an object, or None."""
        return self.tabs.get(text_in(value, *names, "context"))

    def knows(self, params):
        """Whether each context and user context that the params name is known."""
        contexts = [params[it] for it in ("context", "referenceContext") if it in params] + items(params, "contexts")
        users = [params[it] for it in ("userContext",) if it in params] + items(params, "userContexts")
        return all(it in list(self.tabs) for it in contexts) and all(it in self.users for it in users)

    def sends(self, event):
        """Whether the browser in memory sends this event of the log by itself."""
        method, params = event["method"], event["params"]
        tab = self.realms.get(text_in(params, "realm")) if method == "script.realmDestroyed" else self.tab_of(params)
        if method in TAB_EVENTS:
            return text_in(params, "context") in self.ids
        is_navigation = method in NAVIGATION_EVENTS and text_in(params, "navigation") in self.navigations
        return (is_navigation or method.startswith("script.realm")) and tab is not None and tab.is_followed

    def not_sent(self, events):
        return [it for it in events if not self.sends(it)]

    def keeps(self, exchange):
        """Whether a command has to reach the browser in memory; it then keeps what the command makes."""
        method, params, result = exchange.method, exchange.params, exchange.result
        if not exchange.is_success or not self.knows(params) or not is_kept(method):
            return False
        if method == "session.new":
            self.ids[text_in(result, "sessionId")] = self.counted(1)
        elif method == "browsingContext.create":
            self.add_tab(text_in(result, "context"), params.get("userContext") or "default")
        elif method == "browsingContext.close":
            self.tabs.pop(params["context"])
        elif method == "browser.createUserContext":
            self.users.append(text_in(result, "userContext"))
            self.ids[self.users[-1]] = self.counted(8)
        elif method == "browser.removeUserContext":
            self.users.remove(params["userContext"])
            self.tabs = {name: tab for name, tab in self.tabs.items() if tab.user != params["userContext"]}
        return True

    def gives(self, exchange):
        """Whether the browser in memory answers a command as the log does."""
        method, params, result = exchange.method, exchange.params, exchange.result
        if not exchange.is_success or not self.knows(params) or self.not_sent(exchange.events):
            return False
        if method == "browsingContext.getTree":
            return self.shows(params, result)
        tab = self.tab_of(params)
        if method not in ("browsingContext.navigate", "browsingContext.reload"):
            return method == "browsingContext.activate"
        url = serialized(params.get("url")) if method == "browsingContext.navigate" else tab and tab.url
        is_same = text_in(result, "url") == url and text_in(result, "navigation") in self.navigations
        if not tab or not tab.is_followed or not is_same:
            return False
        tab.realm, tab.url = self.counted(3), url
        return True

    def shows(self, params, result):
        """Whether the browser in memory has the tree of the log."""
        tabs = [(name, tab.url, tab.user) for name, tab in self.tabs.items() if params.get("root") in (None, name)]
        wanted = [[*tab, None if params.get("maxDepth") == Number("0") else [], None, None] for tab in tabs]
        names = ("context", "url", "userContext", "children", "originalOpener", "parent")
        found = [[info.get(it) for it in names] for info in items(result, "contexts") if isinstance(info, dict)]
        return found == wanted

    def loses(self, exchange):
        """Notes which tabs a row navigates, since the browser in memory does not see it."""
        for event in self.not_sent(exchange.events):
            if event["method"].startswith("browsingContext.") and "navigation" in event["params"] and self.tab_of(event["params"]):
                self.tab_of(event["params"]).is_followed = False
        if exchange.method in NAVIGATING and exchange.is_success and self.tab_of(exchange.params):
            self.tab_of(exchange.params).is_followed = False

    def learns_realms(self, exchange):
        """Learns which realms of the log stand for those of the browser in memory."""
        made = [event["params"] for event in exchange.events if event["method"] == "script.realmCreated"]
        found = [(text_in(it, "realm"), self.tab_of(it)) for it in made]
        if exchange.method.startswith("script.") and not text_in(exchange.params, "target", "sandbox"):
            found.append((text_in(exchange.result, "realm"), self.tab_of(exchange.params, "target")))
        for realm, tab in found:
            if realm and tab and tab.is_followed and self.ids.setdefault(realm, tab.realm) == tab.realm:
                self.realms[realm] = tab


def is_kept(method):
    """Whether the browser in memory has to see the commands of this method, because it keeps what they make."""
    return method in KEEPING or method.startswith("session.")


def serialized(url):
    """The URL as a browser shows it, if only a path can be missing."""
    return url + "/" if isinstance(url, str) and re.fullmatch("https?://[^/?#]+", url) else url


# ---- rows

def part(method, params):
    """The params of a row: those of the command, without what a host with --lenient leaves out of it."""
    found = plain(params)
    for name in ("expression", "functionDeclaration"):
        it = SOURCE_URL.fullmatch(params[name]) if isinstance(params.get(name), str) and method.startswith("script.") else None
        found |= {name: {"$starts": it[1]}} if it else {}
    if method.startswith("script.") and isinstance(found.get("target"), dict):
        found["target"] = {name: each for name, each in found["target"].items() if name != "sandbox"}
    return found


def plain(value):
    """The value as a part that matches it: an object that would be taken as a pattern becomes empty, and so matches any object."""
    if isinstance(value, dict):
        return {} if is_pattern(value) else {name: plain(each) for name, each in value.items()}
    return [plain(each) for each in value] if isinstance(value, list) else value


def is_pattern(value):
    """Whether a row takes this value as a pattern, and not as what is to be found."""
    return isinstance(value, dict) and bool(value) and set(value) <= {"$starts", "$contains"}


def is_found(part, value):
    """Whether a row with this part of params matches such a value; docs/FORMATS.md, "Scripted plays"."""
    if is_pattern(part):
        return isinstance(value, str) and value.startswith(part.get("$starts", "")) and part.get("$contains", "") in value
    if isinstance(part, dict):
        return isinstance(value, dict) and all(name in value and is_found(each, value[name]) for name, each in part.items())
    if isinstance(part, list):
        return isinstance(value, list) and len(part) <= len(value) and all(map(is_found, part, value))
    return type(part) is type(value) and part == value


def size(part):
    """A number that is larger for a part than for each other one that is found in it."""
    if is_pattern(part):
        return len("".join(part.values()))
    if isinstance(part, dict):
        return 1 + sum(1 + size(each) for each in part.values())
    if isinstance(part, list):
        return 1 + sum(1 + size(each) for each in part)
    return 1 + len(part) if isinstance(part, str) else 1


def replaced(value, ids):
    """The value with the ids of the host."""
    if isinstance(value, dict):
        return {name: replaced(each, ids) for name, each in value.items()}
    if isinstance(value, list):
        return [replaced(each, ids) for each in value]
    return ids.get(value, value) if isinstance(value, str) else value


@dataclass(eq=False)
class Row:
    """What answers one or more commands that are alike."""

    exchange: Exchange
    params: dict
    reply: dict
    uses: int = 1
    stays: bool = True  # whether it also answers what comes later

    def line(self, ids):
        row = {"method": self.exchange.method, "params": self.params}
        row |= {} if self.stays else {"times": Number(str(self.uses))}
        return "answer " + written(replaced(row | self.reply, ids))


def reply_of(exchange, before, after):
    """The properties of a row that say what is sent."""
    error = {it: text_in(exchange.answer, it) for it in ("error", "message") if text_in(exchange.answer, it) is not None}
    reply = {"result": exchange.result} if exchange.is_success else error
    return reply | ({"before": before} if before else {}) | ({"after": after} if after else {})


class Rows:
    """The rows for a conversation, and what has none."""

    def __init__(self, talk):
        self.talk, self.forced, self.refused, self.limited = talk, set(), set(), set()
        while True:
            self.browser, self.rows, self.late, self.own = Browser(talk), [], [], []
            for it in talk:
                self.add(it)
            self.lines = self.ordered()
            if not self.mend():
                break

    def add(self, it):
        """Adds a row for a command, or leaves it to the browser in memory."""
        browser = self.browser
        if it in self.refused or browser.keeps(it):
            self.late += browser.not_sent(it.events)
            self.own.append(it)
        elif it not in self.forced and browser.gives(it):
            self.own.append(it)
        else:
            browser.loses(it)
            before, after = browser.not_sent(it.before), browser.not_sent(it.after)
            self.rows.append(Row(it, part(it.method, it.params), reply_of(it, self.late + before, after)))
            self.late = []
        browser.learns_realms(it)

    def ordered(self):
        """The rows in the order of their lines. The newest matches first, so rows for more params and for earlier commands come last."""
        alike = defaultdict(list)
        for row in self.rows:
            key = row.exchange.method, written(row.params)
            if alike[key] and written(alike[key][-1].reply) == written(row.reply):
                alike[key][-1].uses += 1
                alike[key][-1].exchange = row.exchange
            else:
                alike[key].append(row)
        for key, rows in alike.items():
            for row in rows if key in self.limited else rows[:-1]:
                row.stays = False
        return [row for rows in sorted(alike.values(), key=lambda it: size(it[0].params)) for row in reversed(rows)]

    def mend(self):
        """Whether a row takes a command from the browser in memory; the next rows then differ."""
        left, places = {row: row.uses for row in self.lines}, {it: n for n, it in enumerate(self.talk)}
        by_method, mended = defaultdict(list), False
        for row in reversed(self.lines):
            by_method[row.exchange.method].append(row)
        own = set(self.own)
        for it in self.talk:
            row = next((row for row in by_method[it.method] if (row.stays or left[row]) and is_found(row.params, it.params)), None)
            if row and it in own:
                self.mend_one(it, row, places)
                mended = True
            elif row:
                left[row] -= 1
        return mended

    def mend_one(self, it, row, places):
        """Lets the row end in time, or gives the command a row, or leaves the commands of the row to the browser in memory."""
        key = row.exchange.method, written(row.params)
        if row.stays and places[row.exchange] < places[it]:
            self.limited.add(key)
        elif is_kept(it.method):
            self.refused |= {each.exchange for each in self.rows if (each.exchange.method, written(each.params)) == key}
        else:
            self.forced.add(it)


# ---- names, and the whole

def profile():
    """The events of the profile, and its modules."""
    text = FORMATS.read_text()
    events = re.findall(r"^\| (\w+\.\w+) \|", text[text.index("## Table of events"):text.index("## session\n")], re.M)
    return set(events), {it.split(".")[0] for it in re.findall(r"^\| (\w+\.\w+) \|", text, re.M)}


def names(talk, rows):
    """The names that sessions subscribe to or are sent, and that the profile lacks."""
    events, modules = profile()
    asked = [name for it in talk if it.method == "session.subscribe" and it.is_success for name in items(it.params, "events")]
    sent = [event["method"] for row in rows for event in row.reply.get("before", []) + row.reply.get("after", [])]
    beyond = {it for it in sent if it not in events}
    found = beyond | {it.split(".")[0] for it in beyond} | {it for it in asked if isinstance(it, str)} - events - modules
    return sorted(it for it in found if re.fullmatch(r"[A-Za-z0-9.:_-]{1,255}", it))


def read_log(name):
    try:
        data = sys.stdin.buffer.read() if name == "-" else Path(name).read_bytes()
    except OSError as error:
        raise Fault(f"cannot read {name}: {error.strerror}")
    return data.decode(errors="replace")


def lines_of(log):
    """The page lines for a log, and a report on what has none."""
    talk, unanswered = exchanges(messages(log))
    if not talk:
        raise Fault("no command with an answer was found")
    made = Rows(talk)
    rows = {row: row.line(made.browser.ids) for row in made.lines}
    fitting = [row for row, line in rows.items() if len(line.encode()) <= MOST_BYTES][-MOST_ROWS:]
    known = names(talk, fitting)
    report = (f"{len(fitting)} rows for {len(made.rows)} commands; {len(made.own)} commands without a row; {unanswered} commands "
              f"without an answer; {len(rows) - len(fitting)} rows and {len(made.late)} events left out")
    return ["names " + " ".join(known)] * bool(known) + [rows[row] for row in fitting], report


def main():
    parser = argparse.ArgumentParser(description="Makes page lines of a recorded conversation.")
    parser.add_argument("log", metavar="LOG", help="the log, in a form of docs/CHECKING.md; - is standard input")
    name = parser.parse_args().log
    text = read_log(name)
    try:
        lines, report = lines_of(text)
    except Fault as fault:
        raise Fault(f"{name}: {fault}")
    sys.stdout.buffer.write("".join(line + "\n" for line in lines).encode())
    print(f"rows_of_log: {report}", file=sys.stderr)


if __name__ == "__main__":
    try:
        main()
    except Fault as fault:
        print(f"rows_of_log: {fault}", file=sys.stderr)
        sys.exit(2)
