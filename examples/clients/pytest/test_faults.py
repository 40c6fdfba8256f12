"""Tests of a client over faults and commands that the browser in memory does not have: BIDI=path/to/bidi pytest

`Client` of test_host.py stands where the client that is to be tested would stand.
"""
import asyncio
import json

import pytest
import websockets

from test_host import TAB, Refused, connected, driving, tells

NETWORK = "network.beforeRequestSent"


def event(method, **params):
    return {"method": method, "params": params}


async def test_a_reply_is_slow(async_host):
    async with driving(async_host) as client:
        await async_host.hold("browsingContext.navigate")
        page = asyncio.ensure_future(client.ask("browsingContext.navigate", context=TAB, url="http://a.test/"))
        number, _, text = await async_host.held()
        assert json.loads(text)["method"] == "browsingContext.navigate" and not page.done()
        assert await async_host.page(f"release {number}") == "ok"
        assert (await page)["url"] == "http://a.test/"
        assert tells(await async_host.page(f"release {number}"), "no effect")


async def test_a_reply_never_comes(async_host):
    async with driving(async_host) as client:
        await async_host.hold("browsingContext.navigate", params={"url": {"$contains": "slow"}})
        with pytest.raises(asyncio.TimeoutError):
            await asyncio.wait_for(client.ask("browsingContext.navigate", context=TAB, url="http://slow.test/"), timeout=0.2)
        assert (await client.ask("browsingContext.navigate", context=TAB, url="http://a.test/"))["url"] == "http://a.test/"


async def test_the_test_answers_what_is_held(async_host):
    async with driving(async_host) as client:
        await async_host.hold("browsingContext.navigate", times=1)
        page = asyncio.ensure_future(client.ask("browsingContext.navigate", context=TAB, url="http://a.test/"))
        number, _, _ = await async_host.held()
        assert await async_host.page(f'release {number} {{"error":"unknown error","message":"no network"}}') == "ok"
        with pytest.raises(Refused, match="unknown error"):
            await page


async def test_a_connection_is_cut(async_host):
    async with driving(async_host) as client:
        assert await async_host.page("cut 1") == "ok"
        await client.socket.wait_closed()
        assert client.socket.close_code == 1006
        assert tells(await async_host.page("cut 1"), "no effect")
    async with connected(async_host) as again:
        assert (await again.ask("session.status"))["ready"]


async def test_a_connection_is_closed_with_a_code(async_host):
    async with driving(async_host) as client:
        assert await async_host.page("close 1 4001") == "ok"
        assert await client.closed() == (4001, "")


@pytest.mark.parametrize("text", ["", "no JSON", '{"id":77,"result":{},"type":"success"}', '{"type":"weather"}'])
async def test_a_stray_message_comes(async_host, text):
    async with driving(async_host) as client:
        assert await async_host.page(f"send 1 {text}") == "ok"
        assert await client.socket.recv() == text


async def test_a_binary_message_comes(async_host):
    async with driving(async_host) as client:
        assert await async_host.page("bytes 1 00ff") == "ok"
        assert await client.socket.recv() == b"\x00\xff"


@pytest.mark.parametrize("frame", ["c100", "818000000000", "8000", "8300", "8101ff"], ids=["reserved bit", "mask", "no beginning", "opcode", "no UTF-8"])
async def test_a_frame_is_broken(async_host, frame):
    async with driving(async_host) as client:
        assert await async_host.page(f"raw 1 {frame}") == "ok"
        code, _ = await client.closed()
        assert code != 1000


async def test_a_message_comes_in_parts_with_a_ping_between(async_host):
    async with driving(async_host) as client:
        assert await async_host.page("raw 1 01017b") == "ok"
        assert await async_host.page("raw 1 890080017d") == "ok"
        assert await client.socket.recv() == "{}"


async def test_the_server_does_not_read(async_host):
    async with driving(async_host) as client:
        assert await async_host.page("stall 1") == "ok"
        ready = asyncio.ensure_future(client.ask("session.status"))
        with pytest.raises(asyncio.TimeoutError):
            await asyncio.wait_for(asyncio.shield(ready), timeout=0.2)
        assert await async_host.page("resume 1") == "ok"
        assert (await ready)["ready"]


async def test_a_handshake_is_refused(async_host):
    assert await async_host.page("refuse 1 503") == "ok"
    with pytest.raises(websockets.exceptions.InvalidStatusCode, match="503"):
        async with connected(async_host):
            pass
    async with connected(async_host) as client:
        assert (await client.ask("session.status"))["ready"]


async def test_a_message_is_cut_off(async_host):
    async with driving(async_host) as client:
        assert await async_host.page("cut 1 10") == "ok"
        await client.socket.send('{"id":1,"method":"session.status","params":{}}')
        assert (await client.closed())[0] == 1006
    async with connected(async_host) as again:
        assert (await again.ask("session.status"))["ready"]


async def test_an_unknown_event_comes(async_host):
    async with driving(async_host) as client:
        assert await async_host.page("names weather") == "ok"
        await client.ask("session.subscribe", events=["weather"])
        assert await async_host.page("emit " + json.dumps(event("weather.changed", sky=0.5))) == "ok"
        assert await client.event() == {"sky": 0.5}
        await client.ask("session.unsubscribe", events=["weather"])
        assert await async_host.page("emit " + json.dumps(event("weather.changed"))) == "ok"
        assert await client.heard() == []


async def test_a_command_of_the_profile_has_an_error(async_host):
    async with driving(async_host) as client:
        await async_host.answer("browsingContext.create", error="unknown error", message="out of windows", times=1)
        with pytest.raises(Refused, match="unknown error"):
            await client.ask("browsingContext.create", type="tab")
        assert "context" in await client.ask("browsingContext.create", type="tab")


async def test_a_command_of_another_module_is_answered(async_host):
    async with driving(async_host) as client:
        with pytest.raises(Refused, match="unknown command"):
            await client.ask("network.addIntercept", phases=["beforeRequestSent"])
        await async_host.answer("network.addIntercept", {"intercept": "one"}, params={"phases": ["beforeRequestSent"]})
        assert await client.ask("network.addIntercept", phases=["beforeRequestSent"]) == {"intercept": "one"}
        with pytest.raises(Refused, match="unknown command"):
            await client.ask("network.addIntercept", phases=["responseStarted"])
        assert await async_host.page("unanswer network.addIntercept") == "ok"
        with pytest.raises(Refused, match="unknown command"):
            await client.ask("network.addIntercept", phases=["beforeRequestSent"])


async def test_events_stand_around_a_reply(async_host):
    async with driving(async_host, "log.entryAdded") as client:
        before, after = [event("log.entryAdded", n=1)], [event("log.entryAdded", n=2)]
        await async_host.answer("browsingContext.handleUserPrompt", before=before, after=after)
        await client.ask("browsingContext.handleUserPrompt", context=TAB)
        assert [each["params"]["n"] for each in client.events] == [1]
        assert [await client.event(), await client.event()] == [{"n": 1}, {"n": 2}]


async def test_a_navigation_has_its_network_event(async_host):
    async with driving(async_host) as client:
        assert await async_host.page("names network") == "ok"
        sent = event(NETWORK, context="$context", navigation="$navigation", request={"url": "$url"})
        assert await async_host.page("on browsingContext.navigationStarted " + json.dumps([sent])) == "ok"
        await client.ask("session.subscribe", events=["browsingContext.navigationStarted", NETWORK])
        page = await client.ask("browsingContext.navigate", context=TAB, url="http://a.test/", wait="complete")
        assert [each["method"] for each in client.events] == ["browsingContext.navigationStarted", NETWORK]
        assert client.events[1]["params"] == {"context": TAB, "navigation": page["navigation"], "request": {"url": "http://a.test/"}}


async def test_an_event_goes_to_its_subscribers_alone(async_host):
    async with driving(async_host, "log.entryAdded") as one, driving(async_host) as two:
        assert await async_host.page("emit " + json.dumps(event("log.entryAdded", text="hi"))) == "ok"
        assert await one.event() == {"text": "hi"}
        assert await two.heard() == []


@pytest.mark.parametrize("line", [
    'answer {"result":{}}', 'answer {"method":"a","result":{},"error":"e"}', 'answer {"method":"a","result":{},"nope":1}', "hold []",
    'answer {"method":"a","result":{},"times":0}', "release 1", "emit {}", "names", "bytes 1 0", "send 9 x", "cut 9", "close 1 1005",
    "raw 1 0", "raw 9 00", "stall 9", "resume 9", "refuse 1 200", "cut 9 5",
])
async def test_a_line_has_no_effect(async_host, line):
    async with driving(async_host):
        assert tells(await async_host.page(line + " " if line == "names" else line), "no effect")


async def test_a_held_command_is_lost_with_its_connection(async_host):
    await async_host.hold("session.status")
    async with connected(async_host) as client:
        await client.socket.send('{"id":1,"method":"session.status","params":{}}')
        number, conn, _ = await async_host.held()
        assert (number, conn) == (1, 1)
    async with connected(async_host):
        assert await async_host.page(f"release {number}") == "ok"


async def test_a_page_on_a_connection_hears_of_held_commands(async_host):
    async with async_host.connect("/page") as page, connected(async_host) as client:
        await page.send('hold {"method":"session.status","times":1}')
        assert await page.recv() == "ok"
        await client.socket.send('{"id":1,"method":"session.status","params":{}}')
        assert await page.recv() == 'held 1 1 {"id":1,"method":"session.status","params":{}}'
        await page.send("release 1")
        assert await page.recv() == "ok"
        assert json.loads(await client.socket.recv())["id"] == 1


async def test_a_reset_forgets_rows_and_held_commands(async_host):
    async with driving(async_host):
        await async_host.answer("session.status", {"ready": False})
        await async_host.hold("session.end")
        assert await async_host.page("reset") == "ok"
    async with driving(async_host) as client:
        assert (await client.ask("session.status"))["ready"] is True
        await client.ask("session.end")
        assert tells(await async_host.page("release 1"), "no effect")
