"""Tests of the fixture itself: of what it does for a test that forgets to close, that fails, or whose host ends or is silent."""
import asyncio
import json
import os
import re
import shutil
import subprocess
import sys
import time
from concurrent.futures import ThreadPoolExecutor
from pathlib import Path

import conftest
import pytest
from conftest import AsyncHost, Host, HostFault

STATUS = '{"id":1,"method":"session.status","params":{}}'
LONG = "x" * 200_000  # more than a pipe keeps

FORGETFUL = '''
import asyncio
import pytest
import websockets

STATUS = '{"id":1,"method":"session.status","params":{}}'
left = []

async def test_leaves_a_client_of_the_fixture_open(host):
    left.append(await host.connect())

async def test_leaves_a_client_of_its_own_open(host):
    left.append(await websockets.connect(host.url + "/session"))

async def test_leaves_messages_unread(host):
    left.append(await host.connect())
    for _ in range(100):
        await left[-1].send(STATUS)

async def test_finds_all_closed(host):
    assert [socket.closed for socket in left] == [True, True, True]
'''

FAILING = '''
import asyncio

STATUS = '{"id":1,"method":"session.status","params":{}}'

async def ask(host):
    socket = await host.connect()
    await socket.send(STATUS)
    await socket.recv()
    return socket

async def test_passes(host):
    await ask(host)

async def test_fails(host):
    await ask(host)
    assert "this" == "that"

async def test_waits_for_a_host_that_dies(host):
    await ask(host)
    host.child.kill()
    await asyncio.Event().wait()

async def test_listens_to_a_host_that_dies(host):
    socket = await ask(host)
    host.child.kill()
    await socket.recv()

async def test_does_not_see_that_the_host_dies(host):
    await ask(host)
    host.child.kill()

async def test_has_a_new_host(host):
    await ask(host)
'''

SILENT = '''
import asyncio
import signal
import conftest
import pytest

@pytest.fixture(autouse=True)
def silent(host, monkeypatch):
    monkeypatch.setattr(conftest, "LIMIT", 1)
    host.child.send_signal(signal.SIGSTOP)

def test_writes(host):
    host.page("x" * 200_000)

async def test_writes_in_a_coroutine(host):
    host.page("x" * 200_000)

async def test_writes_and_awaits(async_host):
    await async_host.page("x" * 200_000)

async def test_awaits_a_task_that_writes(async_host):
    task = asyncio.ensure_future(async_host.page("x" * 200_000))
    await asyncio.Event().wait()
'''


def run_tests(folder, source, **variables):
    """Runs the tests of a source over the fixture. Returns the counts of its last line, the whole output, and the seconds."""
    shutil.copy(Path(__file__).with_name("conftest.py"), folder)
    (folder / "test_inner.py").write_text(source)
    command = [sys.executable, "-m", "pytest", "-p", "no:cacheprovider", "--rootdir", str(folder), str(folder)]
    start = time.monotonic()
    run = subprocess.run(command, env=os.environ | variables, capture_output=True, text=True, timeout=60)
    return run.stdout.splitlines()[-1].strip("= ").partition(" in ")[0], run.stdout, time.monotonic() - start


@pytest.fixture(scope="module")
def failed(tmp_path_factory):
    """A run of the tests that fail, with its records. A record of an earlier run is there for a test that passes now."""
    folder = tmp_path_factory.mktemp("failing")
    records = folder / "records"
    records.mkdir()
    (records / "test_inner-py-test_passes.play").write_text("at 1500\n")
    return records, *run_tests(folder, FAILING, BIDI_RECORD=str(records))


def test_a_test_need_not_close_its_clients(tmp_path):
    counts, output, seconds = run_tests(tmp_path, FORGETFUL)
    assert counts == "4 passed", output
    assert seconds < 25  # Each client of websockets that is left open would take ten.


def test_a_test_ends_with_its_host(failed):
    _, counts, output, seconds = failed
    assert counts == "3 failed, 3 passed, 1 error", output
    assert len(re.findall(r"\nE +conftest\.HostFault: .*was ended by signal 9 \(SIGKILL\)\. ", output)) == 3
    assert seconds < 25  # A test that waits for ever would take thirty.


def test_a_test_ends_if_its_host_does_not_read(tmp_path):
    counts, output, seconds = run_tests(tmp_path, SILENT)
    assert counts == "4 failed", output
    assert len(re.findall(r"\nE +conftest\.HostFault: `.*` does not answer\. ", output)) == 4
    assert seconds < 40


def test_only_the_record_of_a_test_that_fails_is_kept(failed):
    records, _, output, _ = failed
    names = ["fails", "waits_for_a_host_that_dies", "listens_to_a_host_that_dies", "does_not_see_that_the_host_dies"]
    assert sorted(file.name for file in records.iterdir()) == sorted(f"test_inner-py-test_{name}.play" for name in names)
    for file in records.iterdir():
        assert f"record: {file}\n" in output
        assert f"python3 tools/look.py {file} > look.html\n" in output


def test_folders_of_processes_that_are_gone_are_removed(tmp_path):
    gone = subprocess.Popen(["true"])
    gone.wait()
    names = [f"host-{gone.pid}-a", f"host-{os.getpid()}-a", "host-a", "test.play"]
    for name in names:
        (tmp_path / name).mkdir()
    (tmp_path / names[0] / "play").write_text("at 1500\n")
    records = conftest.Records(tmp_path)
    assert sorted(file.name for file in tmp_path.iterdir()) == sorted([*names[1:], records.written.name])
    records.end()
    assert sorted(file.name for file in tmp_path.iterdir()) == sorted(names[1:])


def test_a_record_is_a_play(failed):
    with (failed[0] / "test_inner-py-test_fails.play").open() as lines:
        play = subprocess.run([os.environ.get("BIDI") or "bidi", "play"], stdin=lines, capture_output=True, text=True)
    answer = '< 1 {"id":1,"result":{"message":"ready","ready":true},"type":"success"}'
    assert play.stdout.splitlines()[:2] == ["opened 1", answer]


async def test_the_end_of_a_host_is_told_with_its_standard_error():
    other = Host("--lenient")
    async with other.connect() as socket:
        capabilities = {"alwaysMatch": {"webSocketUrl": True}}
        await socket.send(json.dumps({"id": 1, "method": "session.new", "params": {"capabilities": capabilities}}))
        assert json.loads(await socket.recv())["type"] == "success"
    other.child.kill()
    with pytest.raises(HostFault, match=r"(?s)signal 9 \(SIGKILL\)\..*bidi: left out .*webSocketUrl"):
        other.page("at 1500")
    other.end()


def test_a_host_that_does_not_start_is_told_with_its_status(tmp_path):
    with pytest.raises(HostFault, match=r"(?s)ended with status 3\..*bidi: cannot read .*none: no such file"):
        Host("--page", str(tmp_path / "none"))


def test_a_program_that_is_not_found_is_told_in_one_line(monkeypatch):
    monkeypatch.setenv("BIDI", "no-such-program")
    with pytest.raises(HostFault, match="^cannot run `no-such-program` .*BIDI.*$") as told:
        Host()
    assert "\n" not in str(told.value)


def test_further_lines_of_standard_error_are_read(tmp_path, monkeypatch):
    program, script = shutil.which(os.environ.get("BIDI") or "bidi"), tmp_path / "bidi"
    script.write_text(f'#!/bin/sh\nyes "a line before" | head -n 10000 >&2\nexec {os.path.abspath(program)} "$@"\n')
    script.chmod(0o755)
    monkeypatch.setenv("BIDI", str(script))
    other = Host()
    assert other.page("at 1500") == "ok"
    other.child.kill()
    with pytest.raises(HostFault, match="(?s)SIGKILL.*a line before"):
        other.page("at 1500")
    other.end()


@pytest.fixture
def silent(tmp_path, monkeypatch):
    """A host that reads nothing and answers nothing, and for which a call waits one second."""
    script = tmp_path / "bidi"
    script.write_text('#!/bin/sh\necho "WebDriver BiDi listening on ws://127.0.0.1:9" >&2\nexec sleep 60\n')
    script.chmod(0o755)
    monkeypatch.setenv("BIDI", str(script))
    host = Host()
    monkeypatch.setattr(conftest, "LIMIT", 1)
    yield host
    host.fault()
    host.end()


def test_a_host_that_does_not_read_is_at_fault(silent):
    with pytest.raises(HostFault, match="does not answer"):
        silent.page(LONG)


async def test_other_tasks_run_while_a_host_does_not_read(silent):
    page = asyncio.ensure_future(AsyncHost(silent).page(LONG))
    await asyncio.sleep(0.1)
    assert not page.done()
    with pytest.raises(HostFault, match="does not answer"):
        await page


def test_a_host_that_does_not_read_can_be_ended(silent):
    silent.send(LONG)
    with pytest.raises(HostFault, match="does not answer"):
        silent.end()


def test_a_long_line_is_answered(host):
    assert host.page(LONG).startswith("no line of a page: ")
    assert host.page("at 1500") == "ok"


async def test_lines_are_answered_in_their_order(async_host):
    lines = ["at 1500", "unframe none", "fly"]
    answers = await asyncio.gather(*map(async_host.page, lines))
    assert [answer.partition(":")[0] for answer in answers] == ["ok", "no effect", "no line of a page"]


async def test_a_call_that_is_cancelled_takes_no_answer_of_another(async_host):
    page = asyncio.ensure_future(async_host.page("at 1500"))
    await asyncio.sleep(0)
    page.cancel()
    assert (await async_host.page("fly")).startswith("no line of a page: ")
    assert page.cancelled()


async def test_a_call_that_is_cancelled_takes_no_held_command(async_host):
    await async_host.hold("session.status")
    with pytest.raises(TimeoutError):
        await asyncio.wait_for(async_host.held(), timeout=0.1)
    async with async_host.connect() as socket:
        await socket.send(STATUS)
        assert await asyncio.wait_for(async_host.held(), timeout=5) == (1, 1, STATUS)


async def test_a_reset_forgets_held_commands(async_host):
    await async_host.hold("session.status", times=1)
    async with async_host.connect() as socket:
        await socket.send(STATUS)
        await socket.send(STATUS)
        await socket.recv()  # The second command is answered, so the first is held.
    await async_host.reset()
    with pytest.raises(TimeoutError):
        await asyncio.wait_for(async_host.held(), timeout=0.1)


async def ask_status(host):
    async with host.connect() as socket:
        await socket.send(STATUS)
        return json.loads(await socket.recv())


def test_a_plain_test_takes_a_held_command(host):
    host.hold("session.status")
    with ThreadPoolExecutor() as pool:
        reply = pool.submit(asyncio.run, ask_status(host))
        number, conn, text = host.held()
        assert (number, conn, text) == (1, 1, STATUS)
        assert host.page("release 1") == "ok"
        assert reply.result(timeout=5)["result"]["ready"] is True


def test_that_no_command_is_held_is_no_fault_of_the_host(host, monkeypatch):
    monkeypatch.setattr(conftest, "LIMIT", 0.1)
    with pytest.raises(TimeoutError, match="no command was held in 0.1 seconds"):
        host.held()
    monkeypatch.undo()
    assert host.page("at 1500") == "ok"
