"""Tests of a client over `bidi host`: BIDI=path/to/bidi pytest

`Client` stands where the client that is to be tested would stand; it keeps each message in the order in which it came.
"""
import asyncio
import json
import urllib.request
from contextlib import asynccontextmanager

import pytest
import websockets

TAB = "00000000-0002-8000-8000-000000000001"  # the tab that stands at the start
SESSION = "00000000-0001-8000-8000-000000000001"  # the first session


class Refused(Exception):
    """An error in place of a result; its text is the code."""


class Client:
    """One connection, which asks a command at a time."""

    def __init__(self, socket):
        self.socket, self.id, self.events = socket, 0, []

    async def take(self):
        return json.loads(await asyncio.wait_for(self.socket.recv(), timeout=5))

    async def ask(self, method, **params):
        """The result of a command. Events that come before it are kept."""
        self.id += 1
        await self.socket.send(json.dumps({"id": self.id, "method": method, "params": params}))
        while (message := await self.take())["type"] == "event":
            self.events.append(message)
        assert message["id"] == self.id
        if message["type"] == "error":
            raise Refused(message["error"])
        return message["result"]

    async def event(self):
        """The params of the next event."""
        return (self.events.pop(0) if self.events else await self.take())["params"]

    async def heard(self):
        """The names of all events that were sent until now: the answer to a question stands behind them."""
        await self.ask("session.status")
        names = [event["method"] for event in self.events]
        self.events.clear()
        return names

    async def closed(self):
        """The code and the reason by which the host closes the connection."""
        await asyncio.wait_for(self.socket.wait_closed(), timeout=5)
        return self.socket.close_code, self.socket.close_reason


def tells(answer, words):
    """Whether an answer of a page begins with these words. A reason may follow."""
    return answer == words or answer.startswith(f"{words}: ")


@asynccontextmanager
async def connected(host, resource="/session"):
    """A client on a connection without a session, or on one more of a session."""
    async with host.connect(resource) as socket:
        yield Client(socket)


@asynccontextmanager
async def driving(host, *events):
    """A client with a session of its own, which is subscribed to these events and has heard what was told at once."""
    async with connected(host) as client:
        await client.ask("session.new", capabilities={})
        if events:
            await client.ask("session.subscribe", events=list(events))
            client.events.clear()
        yield client


async def test_a_session_begins_and_ends(async_host):
    async with connected(async_host) as client:
        assert await client.ask("session.status") == {"ready": True, "message": "ready"}
        assert (await client.ask("session.new", capabilities={}))["sessionId"] == SESSION
        assert await client.ask("session.end") == {}
        assert await client.closed() == (1000, "")


async def test_only_subscribed_events_are_told(async_host):
    async with driving(async_host) as client:
        await client.ask("browsingContext.create", type="tab")
        assert await client.heard() == []
        await client.ask("session.subscribe", events=["browsingContext.contextDestroyed"])
        tab = await client.ask("browsingContext.create", type="tab")
        await client.ask("browsingContext.close", **tab)
        assert (await client.event())["context"] == tab["context"]
        await client.ask("session.unsubscribe", events=["browsingContext.contextDestroyed"])
        await client.ask("browsingContext.close", context=TAB)
        assert await client.heard() == []


async def test_frames_come_and_go(async_host):
    async with driving(async_host, "browsingContext.contextCreated", "browsingContext.contextDestroyed") as client:
        assert await async_host.page(f"frame {TAB} http://a.test/side") == "ok"
        frame = await client.event()
        assert (frame["parent"], frame["url"]) == (TAB, "http://a.test/side")
        tree = await client.ask("browsingContext.getTree", root=TAB)
        assert [child["context"] for child in tree["contexts"][0]["children"]] == [frame["context"]]
        assert await async_host.page(f"unframe {frame['context']}") == "ok"
        assert (await client.event())["context"] == frame["context"]
        assert tells(await async_host.page(f"unframe {TAB}"), "no effect")
        assert await client.heard() == []


@pytest.mark.parametrize("wait, before, behind", [
    ("none", ["navigationStarted"], ["domContentLoaded", "load"]),
    ("interactive", ["navigationStarted", "domContentLoaded"], ["load"]),
    ("complete", ["navigationStarted", "domContentLoaded", "load"], []),
])
async def test_a_navigation_is_answered_where_it_waits_for(async_host, wait, before, behind):
    events = [f"browsingContext.{name}" for name in before + behind]
    async with driving(async_host, *events) as client:
        there = await client.ask("browsingContext.navigate", context=TAB, url="http://a.test", wait=wait)
        assert there["url"] == "http://a.test/"
        assert [event["method"] for event in client.events] == events[:len(before)]
        assert await client.heard() == events
        assert there["navigation"] == "00000000-0004-8000-8000-000000000001"


@pytest.mark.parametrize("row, result", [
    ('{"text":"run()","returns":{"type":"number","value":2}}', {"type": "number", "value": 2}),
    ('{"text":"run()","returns":{"type":"array","value":[{"type":"null"}]}}', {"type": "array", "value": [{"type": "null"}]}),
    ('{"text":"run()","argument":0}', {"type": "undefined"}),
])
async def test_a_script_gives_what_its_row_says(async_host, row, result):
    async with driving(async_host) as client:
        assert await async_host.page(f"value {row}") == "ok"
        answer = await client.ask("script.evaluate", expression="run()", target={"context": TAB}, awaitPromise=False)
        assert (answer["type"], answer["result"]) == ("success", result)


async def test_a_function_gives_its_argument(async_host):
    async with driving(async_host) as client:
        await async_host.page('value {"text":"x => x","argument":0}')
        given = {"type": "string", "value": "same"}
        answer = await client.ask("script.callFunction", functionDeclaration="x => x", arguments=[given],
                                  target={"context": TAB}, awaitPromise=False)
        assert answer["result"] == given


async def test_a_script_that_throws_is_no_error(async_host):
    async with driving(async_host) as client:
        await async_host.page('value {"text":"pay()","throws":{"type":"error"}}')
        answer = await client.ask("script.evaluate", expression="pay()", target={"context": TAB}, awaitPromise=True)
        assert answer["type"] == "exception"
        assert answer["exceptionDetails"]["exception"] == {"type": "error"}


async def test_a_log_entry_has_its_level_and_moment(async_host):
    async with driving(async_host, "log.entryAdded") as client:
        await async_host.page("at 1500")
        assert await async_host.page(f"log {TAB} warn the page is slow") == "ok"
        entry = await client.event()
        assert (entry["level"], entry["text"], entry["timestamp"]) == ("warn", "the page is slow", 1500)
        assert entry["source"]["context"] == TAB


@pytest.mark.parametrize("method, params, code", [
    ("session.fly", {}, "unknown command"),
    ("session.new", {"capabilities": {}}, "session not created"),
    ("session.subscribe", {"events": ["log.nothing"]}, "invalid argument"),
    ("browsingContext.navigate", {"context": "none", "url": "http://a.test"}, "no such frame"),
    ("browsingContext.navigate", {"context": TAB, "url": "/relative"}, "invalid argument"),
    ("browsingContext.traverseHistory", {"context": TAB, "delta": -1}, "no such history entry"),
    ("browser.removeUserContext", {"userContext": "default"}, "invalid argument"),
    ("script.evaluate", {"expression": "1", "target": {"context": TAB}, "awaitPromise": False}, "unsupported operation"),
])
async def test_a_bad_command_is_refused(async_host, method, params, code):
    async with driving(async_host) as client:
        with pytest.raises(Refused, match=f"^{code}$"):
            await client.ask(method, **params)


async def test_a_text_that_is_no_json_is_answered(async_host):
    async with connected(async_host) as client:
        await client.socket.send('{"id":1')
        answer = await client.take()
        assert (answer["type"], answer["id"], answer["error"]) == ("error", None, "invalid argument")


async def test_two_sessions_share_a_browser_and_no_subscription(async_host):
    async with driving(async_host, "browsingContext.contextCreated") as one, driving(async_host, "log.entryAdded") as other:
        tab = (await other.ask("browsingContext.create", type="tab"))["context"]
        assert (await one.event())["context"] == tab
        await async_host.page(f"log {tab} info to one of two")
        assert (await other.event())["text"] == "to one of two"
        assert await one.heard() == []
        await one.ask("session.end")
        assert await one.closed() == (1000, "")
        await async_host.page(f"log {tab} info still there")
        assert (await other.event())["text"] == "still there"


async def test_a_late_subscriber_is_told_what_there_is(async_host):
    async with driving(async_host) as client:
        await async_host.page(f"frame {TAB} http://a.test/side")
        await async_host.page(f"log {TAB} info before the subscription")
        await client.ask("session.subscribe", events=["browsingContext.contextCreated", "log.entryAdded"])
        assert [(await client.event())["url"] for _ in range(2)] == ["about:blank", "http://a.test/side"]
        assert (await client.event())["text"] == "before the subscription"
        await client.ask("session.subscribe", events=["browsingContext.contextCreated", "log.entryAdded"])
        assert await client.heard() == []


async def test_the_session_of_a_dropped_client_lives_on(async_host):
    async with driving(async_host, "log.entryAdded") as client:
        client.socket.transport.abort()
        await client.socket.wait_closed()
    async with connected(async_host, f"/session/{SESSION}") as again:
        await async_host.page(f"log {TAB} error heard again")
        assert (await again.event())["text"] == "heard again"


async def test_two_connections_speak_for_one_session(async_host):
    async with driving(async_host) as one, connected(async_host, f"/session/{SESSION}") as two:
        await two.ask("session.subscribe", events=["log.entryAdded"])
        await async_host.page(f"log {TAB} info to both")
        assert [(await each.event())["text"] for each in (one, two)] == ["to both", "to both"]
        assert (await one.ask("browsingContext.getTree")) == (await two.ask("browsingContext.getTree"))
        await two.ask("session.end")
        assert [await each.closed() for each in (one, two)] == [(1000, ""), (1000, "")]


async def test_a_page_may_be_a_connection(async_host):
    async with driving(async_host, "log.entryAdded") as client, async_host.connect("/page") as page:
        for line, words in [(f"log {TAB} info by a socket", "ok"), ("unframe none", "no effect"), ("fly", "no line of a page")]:
            await page.send(line)
            assert tells(await page.recv(), words)
        assert (await client.event())["text"] == "by a socket"
        await page.send("reset")
        assert await page.recv() == "ok"
        assert await client.closed() == (1001, "")
        await page.send(f"log {TAB} info to nobody")
        assert await page.recv() == "ok"


async def test_a_reset_makes_a_new_browser(async_host):
    async with driving(async_host) as client:
        await async_host.page(f"frame {TAB} http://a.test/side")
        await async_host.page('value {"text":"run()","returns":{"type":"null"}}')
        await client.ask("browsingContext.navigate", context=TAB, url="http://a.test")
        assert await async_host.page("reset") == "ok"
        assert await client.closed() == (1001, "")
    async with driving(async_host) as client:
        (only,) = (await client.ask("browsingContext.getTree"))["contexts"]
        assert (only["context"], only["url"], only["children"]) == (TAB, "about:blank", [])
        with pytest.raises(Refused, match="unsupported operation"):
            await client.ask("script.evaluate", expression="run()", target={"context": TAB}, awaitPromise=False)


@pytest.mark.parametrize("resource", ["/", "/session/", "/session/none", "/devtools"])
async def test_another_resource_is_not_found(async_host, resource):
    with pytest.raises(websockets.InvalidHandshake, match="404"):
        async with connected(async_host, resource):
            pass


def test_the_status_is_told_over_http(host):
    with urllib.request.urlopen(host.url.replace("ws:", "http:") + "/status", timeout=5) as answer:
        assert (answer.status, json.load(answer)) == (200, {"value": {"ready": True, "message": "ready"}})
