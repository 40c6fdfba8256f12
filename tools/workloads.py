#!/usr/bin/env python3
"""Writes an input of `bidi` in which what is measured comes many times: workloads.py NAME COUNT [SIZE]

`events` is for `bidi check --from remote`, `shown` for `bidi show --from remote`, `misfits` for `bidi check --from remote --why`, `pair`
for `bidi pair`, `reduced` for `bidi reduce --session 1`, and all others for `bidi play`. SIZE is how much stands beside, or how long the
text is; a name has a usual one.

| NAME | COUNT | SIZE |
|---|---|---|
| events, shown | lines of an event | |
| misfits | lines of an event whose name there is not | |
| turns | moments and statuses by turns | |
| refused | commands of a method that there is none of | |
| pair | commands over 8 links, of which 100 wait on each at once | |
| connections | statuses on the last connection | connections, up to 64 |
| sessions_come | sessions that come and end | |
| contexts | tabs that come with 15 frames, are shown 1,000 times and go | |
| frames | frames that come and go below the last tab, unheard | tabs, up to 1,023 |
| creates | times that tabs come and go, the oldest first | tabs, up to 1,023 |
| looks | looks at the last tab alone | tabs, up to 1,024 |
| navigate_last | navigations of the last tab, unheard | tabs, up to 1,024 |
| navigate, reduced | navigations of which a session hears five events each | |
| evaluate | evaluates of a text | bytes, up to 1,000,000 |
| values | evaluates of a list of numbers | bytes, up to 1,000,000 |
| cut | the same, at depth 1 | bytes, up to 1,000,000 |
| call | calls that give their argument back, a text | bytes, up to 1,000,000 |
| numbers | calls with a list of numbers | numbers, up to 33,000 |
| handles | handles that are given and disowned | handles that stay, up to 999 |
| subscribe | subscriptions that come and go | subscriptions that stay, up to 255 |
| subscribe_tabs | the same, to the log | tabs, up to 1,024 |
| unheard | navigations that nobody hears | subscriptions of each of 8 sessions, up to 256 |
| users | lists of all user contexts | user contexts, up to 64 |
| log | lines that 8 sessions miss, and then as many that their 64 connections hear | |
| heard | lines of the log that a session hears on one connection | |
| heard_by_all | lines of the log that 64 connections hear | |
| fan | frames that come and go, heard by 64 connections | |
"""
import sys

SESSIONS = CONNECTIONS = LINKS = 8
WAITING = 100
LOG = '{"events":["log.entryAdded"]}'
BIRTHS = '{"events":["browsingContext.contextCreated","browsingContext.contextDestroyed"]}'
ROW = 'value {"text":%s,%s}'


def number(kind, of, session=0):
    """The id of the thing of this number; a subscription's id has the number of its session in front."""
    return f"{session:08x}-{kind:04x}-8000-8000-{of:012x}"


def session_id(of):
    return number(1, of)


def context(of):
    return number(2, of)


EVENT = (
    '{"method":"log.entryAdded","params":{"args":[{"type":"string","value":"hi"}],"level":"info","method":"info",'
    '"source":{"context":"%s","realm":"%s"},"text":"hi","timestamp":7,"type":"console"},"type":"event"}'
) % (context(1), number(3, 1))


def command(connection, method, params="{}"):
    return f'> {connection} {{"id":0,"method":"{method}","params":{params}}}'


def opened(connection, of=None):
    return f"open {connection} /session" + (f"/{session_id(of)}" if of else "")


def new_session(connection):
    return [opened(connection), command(connection, "session.new", '{"capabilities":{}}')]


def new_tabs(tabs):
    """A session on connection 1, and tabs until there are so many."""
    return new_session(1) + [command(1, "browsingContext.create", '{"type":"tab"}')] * (tabs - 1)


def new_sessions():
    """Eight sessions, each made on the first of its eight connections."""
    for earlier in range(SESSIONS):
        first = CONNECTIONS * earlier + 1
        yield from new_session(first)
        yield from (opened(it, earlier + 1) for it in range(first + 1, first + CONNECTIONS))


def subscribe_each(params):
    return [command(CONNECTIONS * it, "session.subscribe", params) for it in range(1, SESSIONS + 1)]


def passing_frames(count, parent, made):
    """Frames of a context, each of which goes before the next comes; so many contexts were made before."""
    for it in range(1, count + 1):
        yield f"frame {parent} about:blank"
        yield f"unframe {context(made + it)}"


def navigations(count, of):
    for it in range(1, count + 1):
        yield command(1, "browsingContext.navigate", f'{{"context":"{of}","url":"https://shop.test/page/{it}"}}')


def evaluation(ownership, options=""):
    params = f'"awaitPromise":false,"expression":"page()","resultOwnership":"{ownership}","target":{{"context":"{context(1)}"}}{options}'
    return command(1, "script.evaluate", f"{{{params}}}")


def calling(function, argument):
    params = f'"arguments":[{argument}],"awaitPromise":false,"functionDeclaration":"{function}","target":{{"context":"{context(1)}"}}'
    return command(1, "script.callFunction", f"{{{params}}}")


def text_of(size):
    return f'{{"type":"string","value":"{"x" * size}"}}'


def pairs(count, earlier):
    """A subscribe to the log and an unsubscribe of it by its id, so often; there were so many subscriptions before."""
    for it in range(1, count + 1):
        yield command(1, "session.subscribe", LOG)
        yield command(1, "session.unsubscribe", f'{{"subscriptions":["{number(5, earlier + it, 1)}"]}}')


def entries(count):
    for it in range(1, count + 1):
        yield f"log {context(1)} info a page writes this to the log, number {it}"


def events(count):
    return [EVENT] * count


def shown(count):
    return events(count)


def misfits(count):
    return [EVENT.replace("log.entryAdded", "log.entryMissed")] * count


def turns(count):
    yield opened(1)
    for it in range(1, count + 1):
        yield f"at {it}"
        yield f'> 1 {{"id":{it},"method":"session.status","params":{{}}}}'


def refused(count):
    return [opened(1), *[command(1, "page.open")] * count]


def pair(count):
    yield from map(opened, range(1, LINKS + 1))
    for _ in range(-(-count // (LINKS * WAITING))):
        for word, rest in ("send", " session.status {}"), ("up", ""), ("down", ""):
            yield from [f"{word} {link}{rest}" for link in range(1, LINKS + 1)] * WAITING


def connections(count, last=64):
    return [*map(opened, range(1, last + 1)), *[command(last, "session.status")] * count]


def sessions_come(count):
    return [*new_session(1), command(1, "session.end")] * count


def contexts(tabs):
    last = tabs + 1
    yield from new_tabs(last)
    yield from (f"frame {context(it)} about:blank" for it in (1, *range(last + 1, last + 15)))
    yield from [command(1, "browsingContext.getTree")] * 1000
    yield from (command(1, "browsingContext.close", f'{{"context":"{context(it)}"}}') for it in range(1, last + 1))


def frames(count, tabs=1023):
    yield from new_tabs(tabs)
    yield from passing_frames(count, context(tabs), tabs)


def creates(count, tabs=1023):
    yield from new_session(1)
    for round in range(count):
        yield from [command(1, "browsingContext.create", '{"type":"tab"}')] * tabs
        made = round * tabs + 2
        yield from (command(1, "browsingContext.close", f'{{"context":"{context(it)}"}}') for it in range(made, made + tabs))


def looks(count, tabs=1024):
    return new_tabs(tabs) + [command(1, "browsingContext.getTree", f'{{"maxDepth":0,"root":"{context(tabs)}"}}')] * count


def navigate_last(count, tabs=1024):
    yield from new_tabs(tabs)
    yield from navigations(count, context(tabs))


def navigate(count):
    yield from new_session(1)
    yield command(1, "session.subscribe", '{"events":["browsingContext","script"]}')
    yield from navigations(count, context(1))


def reduced(count):
    return navigate(count)


def evaluate(count, size=1000):
    return [*new_session(1), ROW % ('"page()"', f'"returns":{text_of(size)}'), *[evaluation("none")] * count]


def values(count, size=1000, options=""):
    items = ",".join('{"type":"number","value":7}' for _ in range(size // 28))
    row = ROW % ('"page()"', f'"returns":{{"type":"array","value":[{items}]}}')
    return [*new_session(1), row, *[evaluation("none", options)] * count]


def cut(count, size=1000):
    return values(count, size, ',"serializationOptions":{"maxObjectDepth":1}')


def call(count, size=1000):
    return [*new_session(1), ROW % ('"x => x"', '"argument":0'), *[calling("x => x", text_of(size))] * count]


def numbers(count, size=33000):
    items = ",".join(f'{{"type":"number","value":{100 + it % 900}}}' for it in range(size))
    row = ROW % ('"xs => 7"', '"returns":{"type":"number","value":7}')
    return [*new_session(1), row, *[calling("xs => 7", f'{{"type":"array","value":[{items}]}}')] * count]


def handles(count, live=999):
    yield from [*new_session(1), ROW % ('"page()"', '"returns":{"type":"object","value":[]}'), *[evaluation("root")] * live]
    for it in range(1, count + 1):
        yield evaluation("root")
        yield command(1, "script.disown", f'{{"handles":["{number(6, live + it)}"],"target":{{"context":"{context(1)}"}}}}')


def subscribe(count, live=255):
    yield from [*new_session(1), *[command(1, "session.subscribe", LOG)] * live]
    yield from pairs(count, live)


def subscribe_tabs(count, tabs=1024):
    yield from new_tabs(tabs)
    yield from pairs(count, 0)


def unheard(count, size=256):
    for it in range(1, SESSIONS + 1):
        yield from [*new_session(it), *[command(it, "session.subscribe", LOG)] * size]
    yield from navigations(count, context(1))


def users(count, live=64):
    yield from [*new_session(1), *[command(1, "browser.createUserContext")] * (live - 1)]
    yield from [command(1, "browser.getUserContexts")] * count


def log(count):
    for part in new_sessions(), entries(count), subscribe_each(LOG), entries(count):
        yield from part


def heard(count):
    return [*new_session(1), command(1, "session.subscribe", LOG), *entries(count)]


def heard_by_all(count):
    return [*new_sessions(), *subscribe_each(LOG), *entries(count)]


def fan(count):
    yield from [*new_sessions(), *subscribe_each(BIRTHS)]
    yield from passing_frames(count, context(1), 1)


NAMES = [events, shown, misfits, turns, refused, pair, connections, sessions_come, contexts, frames, creates, looks, navigate_last, navigate,
         reduced, evaluate, values, cut, call, numbers, handles, subscribe, subscribe_tabs, unheard, users, log, heard, heard_by_all, fan]
WORKLOADS = {it.__name__: it for it in NAMES}


def write(file, name, *sizes):
    """Writes the input of this name, and gives how many lines it has."""
    lines = 0
    for line in WORKLOADS[name](*map(int, sizes)):
        file.write(line + "\n")
        lines += 1
    return lines


if __name__ == "__main__":
    if len(sys.argv) < 3 or sys.argv[1] not in WORKLOADS:
        print(__doc__, file=sys.stderr)
        sys.exit(2)
    write(sys.stdout, *sys.argv[1:])
