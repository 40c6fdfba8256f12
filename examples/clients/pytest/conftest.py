"""Fixtures for the tests of a WebDriver BiDi client: `host` is a browser in memory, new for each test.

The calls of `host` block. A coroutine test takes `async_host`, the same host with calls that are awaited.
One `bidi host` serves the whole run. The environment variable BIDI is the path of the program, `bidi` if it is not set.
The program ends at the end of its standard input, so it never outlives the run.
With the environment variable BIDI_RECORD=DIR, the record of each test that fails is kept in DIR.
It needs Python 3.11 and pytest 7, and for `connect` the package websockets.
"""
import asyncio
import collections
import contextlib
import errno
import inspect
import itertools
import json
import os
import queue
import re
import shutil
import signal
import subprocess
import tempfile
import threading
from concurrent.futures import Future, wait
from pathlib import Path

import pytest

LISTENS = "WebDriver BiDi listening on "
LIMIT = 30  # seconds for a coroutine test, for the start of the program, and for each call of a host


class HostFault(Exception):
    """The program cannot be run, has ended, or does not answer."""


def answer_line(method, result=None, **row):
    """The line `answer` for a method."""
    row = {"method": method, **row} if "error" in row else {"method": method, "result": result or {}, **row}
    return f"answer {json.dumps(row)}"


def hold_line(method, **row):
    """The line `hold` for a method."""
    return f"hold {json.dumps({'method': method, **row})}"


def held_command(line):
    """The number of a held command for `release`, its connection, and its text."""
    _, number, conn, text = line.split(" ", 3)
    return int(number), int(conn), text


def settle(future, line):
    """Gives a line to a future, unless the caller stopped waiting. Returns whether it did."""
    if not future.set_running_or_notify_cancel():
        return False
    future.set_result(line)
    return True


class Host:
    """A running `bidi host`, at `url`. Each call blocks until the program has answered, for 30 seconds at most."""

    def __init__(self, *options):
        program = os.environ.get("BIDI") or "bidi"
        self.command = [program, "host", "--port", "0", "--stdin", *options]
        pipes = {name: subprocess.PIPE for name in ("stdin", "stdout", "stderr")}
        try:
            self.child = subprocess.Popen(self.command, encoding="utf-8", errors="replace", bufsize=1, **pipes)
        except OSError as error:
            raise HostFault(f"cannot run `{program}` ({error.strerror}): "
                            "the environment variable BIDI has to name the program `bidi`") from None
        self.url, self.ready, self.fault_told = None, threading.Event(), None
        self.lines, self.errors = queue.SimpleQueue(), collections.deque(maxlen=20)
        self.lock = threading.Lock()  # for what follows
        self.output_ended = False
        self.answers, self.takers = collections.deque(), collections.deque()  # the futures of `send` and `take`, in order
        self.commands = collections.deque()  # the held commands that nobody has taken
        runs = (self._write, self._read_output, self._read_errors)
        self.threads = [threading.Thread(target=run, daemon=True) for run in runs]
        for thread in self.threads:
            thread.start()
        self.ready.wait(timeout=LIMIT)
        if self.url is None:
            fault = self.fault()
            self.end()
            raise fault

    def _write(self):
        """Writes the queued lines to standard input, up to `None`. A write can wait for ever if the program does not read."""
        with contextlib.suppress(OSError):  # if the program has ended
            for line in iter(self.lines.get, None):
                self.child.stdin.write(line)
        with contextlib.suppress(OSError):
            self.child.stdin.close()

    def _read_output(self):
        """Gives each line of standard output to the call that waits for it, and `None` to all calls at its end."""
        for line in self.child.stdout:
            give = self._give_command if line.startswith("held ") else self._give_answer
            with self.lock:
                give(line.rstrip("\n"))
        with self.lock:
            self.output_ended = True
            while self.answers or self.takers:
                settle((self.answers or self.takers).popleft(), None)

    def _give_answer(self, line):
        """Gives an answer to the oldest line without one."""
        if self.answers:
            settle(self.answers.popleft(), line)

    def _give_command(self, line):
        """Gives the line of a held command to the first call that still waits, or keeps it."""
        while self.takers:
            if settle(self.takers.popleft(), line):
                return
        self.commands.append(line)

    def _read_errors(self):
        """Reads standard error to its end, so that the pipe never fills, and keeps the last lines."""
        for line in self.child.stderr:
            if self.url is None and line.startswith(LISTENS):
                self.url = line[len(LISTENS):].strip()
                self.ready.set()
            else:
                self.errors.append(line.rstrip("\n"))
        self.ready.set()

    def send(self, line):
        """Sends a line of a page. Returns a future of its answer, or of `None` if the program ends before."""
        if "\n" in line:
            raise ValueError(f"not one line: {line!r}")
        future = Future()
        with self.lock:
            if self.output_ended:
                future.set_result(None)
            else:
                self.answers.append(future)
                self.lines.put(line + "\n")
        return future

    def take(self):
        """Returns a future of the line of the next held command, or of `None` if the program ends before."""
        future = Future()
        with self.lock:
            if self.commands or self.output_ended:
                future.set_result(self.commands.popleft() if self.commands else None)
            else:
                self.takers.append(future)
        return future

    def put_back(self, future):
        """Ends a `take` that nobody waits for any more. The next one gets its command."""
        with self.lock:
            if not future.cancel() and future.result() is not None:
                self.commands.appendleft(future.result())

    def forget_held(self):
        """Forgets the held commands that nobody has taken."""
        with self.lock:
            self.commands.clear()

    def is_silent(self):
        """Whether a line has no answer, and gets none within two seconds."""
        with self.lock:
            answers = list(self.answers)
        return bool(wait(answers, timeout=2).not_done)

    def page(self, line):
        """Sends a line of a page and returns its answer, which begins with `ok`, `no effect` or `no line of a page`."""
        __tracebackhide__ = True
        try:
            answer = self.send(line).result(timeout=LIMIT)
        except TimeoutError:
            answer = None
        if answer is None:
            raise self.fault()
        return answer

    def answer(self, method, result=None, **row):
        """Answers a method in place of the browser from now on: by a result, or by `error` with a `message`.

        `params`, `times`, `before` and `after` are those of the line `answer`.
        """
        __tracebackhide__ = True
        answer = self.page(answer_line(method, result, **row))
        assert answer == "ok", answer

    def hold(self, method, **row):
        """Holds the commands of a method from now on; `params` and `times` are those of the line `hold`. See `held`."""
        __tracebackhide__ = True
        answer = self.page(hold_line(method, **row))
        assert answer == "ok", answer

    def held(self):
        """Waits for the next command that is held. Returns its number for `release`, its connection, and its text."""
        __tracebackhide__ = True
        future = self.take()
        try:
            line = future.result(timeout=LIMIT)
        except TimeoutError:
            self.put_back(future)
            raise TimeoutError(f"no command was held in {LIMIT} seconds") from None
        if line is None:
            raise self.fault()
        return held_command(line)

    def reset(self):
        """Makes the browser new, closes the connections of all clients, and forgets the commands that are held."""
        __tracebackhide__ = True
        assert self.page("reset") == "ok"
        self.forget_held()

    def connect(self, resource="/session", **options):
        """Opens a connection: `await host.connect()`, or `async with host.connect() as socket`. A test need not close it."""
        import websockets
        return websockets.connect(self.url + resource, **options)

    def has_ended(self, within=0.0):
        """Whether the program has ended, or ends within this many seconds."""
        try:
            self.child.wait(within)
        except subprocess.TimeoutExpired:
            return False
        return True

    def fault(self):
        """The error that says how the program ended. Kills a program that does not answer."""
        self.fault_told = self.fault_told or self._ending()
        return HostFault(self.fault_told)

    def _ending(self):
        """How the program ended, with the last lines of its standard error."""
        if not self.has_ended(within=2):
            how = "does not answer"
            self.child.kill()
        elif self.child.returncode < 0:
            how = f"was ended by signal {-self.child.returncode} ({signal.Signals(-self.child.returncode).name})"
        else:
            how = f"ended with status {self.child.returncode}"
        self.threads[-1].join(timeout=2)
        lines = "".join(f"\n    {line}" for line in self.errors)
        return (f"`{' '.join(self.command)}` {how}. "
                + (f"The last lines of its standard error:{lines}" if lines else "Its standard error is empty."))

    def end(self):
        """Ends the program. It is a fault if its status is not 0, unless a fault was told before."""
        self.lines.put(None)
        if not (self.has_ended(within=LIMIT) and self.child.returncode == 0) and not self.fault_told:
            raise self.fault()
        for thread in self.threads:
            thread.join()
        self.child.stdout.close()
        self.child.stderr.close()


class AsyncHost:
    """A host for coroutines: other tasks of the loop run while a call waits. `host` is the same host with blocking calls."""

    def __init__(self, host):
        self.host, self.url, self.connect = host, host.url, host.connect

    async def page(self, line):
        """Sends a line of a page and returns its answer, as `Host.page` does."""
        __tracebackhide__ = True
        future, answer = self.host.send(line), None
        with contextlib.suppress(TimeoutError):
            async with asyncio.timeout(LIMIT):
                answer = await asyncio.wrap_future(future)
        if answer is None:
            raise self.host.fault()
        return answer

    async def answer(self, method, result=None, **row):
        """Answers a method in place of the browser from now on, as `Host.answer` does."""
        __tracebackhide__ = True
        answer = await self.page(answer_line(method, result, **row))
        assert answer == "ok", answer

    async def hold(self, method, **row):
        """Holds the commands of a method from now on, as `Host.hold` does."""
        __tracebackhide__ = True
        answer = await self.page(hold_line(method, **row))
        assert answer == "ok", answer

    async def held(self):
        """Waits for the next command that is held, as `Host.held` does. A call that is cancelled takes no command."""
        __tracebackhide__ = True
        future = self.host.take()
        try:
            async with asyncio.timeout(LIMIT):
                line = await asyncio.wrap_future(future)
        except TimeoutError:
            self.host.put_back(future)
            raise TimeoutError(f"no command was held in {LIMIT} seconds") from None
        except asyncio.CancelledError:
            self.host.put_back(future)
            raise
        if line is None:
            raise self.host.fault()
        return held_command(line)

    async def reset(self):
        """Makes the browser new, as `Host.reset` does."""
        __tracebackhide__ = True
        assert await self.page("reset") == "ok"
        self.host.forget_held()


def is_running(pid):
    """Whether there is a process with this id."""
    try:
        os.kill(pid, 0)
    except OSError as error:
        return error.errno != errno.ESRCH
    return True


class Records:
    """The records of one host, which begins a new file at each `reset`. They are in a folder `host-PID-..` inside `folder`."""

    def __init__(self, folder):
        self.folder = Path(folder)
        self.folder.mkdir(parents=True, exist_ok=True)
        self._remove_left()
        self.written = Path(tempfile.mkdtemp(prefix=f"host-{os.getpid()}-", dir=self.folder))
        self.options = ["--record", str(self.written / "play")]

    def _remove_left(self):
        """Removes the folders of processes that are gone: a process that is killed leaves its own."""
        for left in self.folder.iterdir():
            pid = re.match(r"host-([1-9]\d{0,8})-", left.name)
            if pid and not is_running(int(pid[1])):
                shutil.rmtree(left, ignore_errors=True)

    def _files(self):
        """The files that the host wrote and that were not kept, in order: play, play.2, play.3 and so on."""
        return sorted(self.written.iterdir(), key=lambda file: (len(file.name), file.name))

    def begin(self, name):
        """Removes the files of earlier tests, and what an earlier run kept of this test."""
        for file in [*self._files()[:-1], *self.folder.glob(f"{name}.play"), *self.folder.glob(f"{name}.*.play")]:
            file.unlink()

    def keep(self, name):
        """Moves the files of this test to NAME.play, NAME.2.play and so on, and returns them."""
        return [file.rename(self._free(name)) for file in self._files() if file.stat().st_size > 0]

    def _free(self, name):
        numbers = itertools.chain([""], (f".{number}" for number in itertools.count(2)))
        return next(file for number in numbers if not (file := self.folder / f"{name}{number}.play").exists())

    def end(self):
        """Removes the files that were not kept."""
        shutil.rmtree(self.written)


class Run:
    """The host of the whole run. Another one takes its place if it ends."""

    def __init__(self):
        self.host, self.records, self.names = None, None, {}

    def begin(self, test):
        """Returns a host with a new browser."""
        if self.host is None or self.host.has_ended():
            self.end()
            folder = os.environ.get("BIDI_RECORD")
            self.records = Records(folder) if folder else None
            self.host = Host(*(self.records.options if self.records else []))
        self.host.reset()
        if self.records:
            self.records.begin(self._name(test))
        return self.host

    def report(self, test):
        """What helps to understand the failure of a test: the end of its host, its standard error, and its record."""
        lines = []
        if not self.host.fault_told and self.host.has_ended(within=0.1):
            lines.append(str(self.host.fault()))
        elif not self.host.fault_told:
            lines.extend(f"standard error: {line}" for line in self.host.errors)
        for file in self.records.keep(self._name(test)) if self.records else []:
            lines.append(f"record: {file}\nlook at it: python3 tools/look.py {file} > look.html")
        return "\n".join(lines)

    def _name(self, test):
        """The name for the records of a test: its file and its name, in letters, digits, `_` and `-`."""
        name = re.sub(r"\W+", "-", test, flags=re.ASCII).strip("-")[:150]
        while self.names.setdefault(name, test) != test:
            name += "-2"
        return name

    def end(self):
        """Ends the host."""
        host, records = self.host, self.records
        self.host = self.records = None
        if records:
            records.end()
        if host:
            host.end()


RUN = pytest.StashKey[Run]()


@pytest.fixture(scope="session")
def host_run():
    """The host of the whole run."""
    run = Run()
    yield run
    run.end()


@pytest.fixture
def host(request, host_run):
    """A host with a new browser: no client is connected, and ids, clock and table of scripts are as at the start."""
    try:
        host = host_run.begin(request.node.nodeid)
    except HostFault as fault:
        raise pytest.fail.Exception(str(fault), pytrace=False) from None
    request.node.stash[RUN] = host_run
    yield host
    if not host.fault_told:
        host.reset()


@pytest.fixture
def async_host(host):
    """The host of `host` for a coroutine test: `page`, `answer`, `hold`, `held` and `reset` are awaited."""
    return AsyncHost(host)


@pytest.hookimpl(hookwrapper=True)
def pytest_runtest_makereport(item):
    """Adds a section on the host to the report of a test that failed."""
    report = (yield).get_result()
    if report.failed and RUN in item.stash:
        text = item.stash[RUN].report(item.nodeid)
        if text:
            report.sections.append(("bidi host", text))


class Loop(asyncio.SelectorEventLoop):
    """An event loop that can cut all connections that were opened on it."""

    def __init__(self):
        super().__init__()
        self.transports = []

    async def create_connection(self, *args, **options):
        transport, protocol = await super().create_connection(*args, **options)
        self.transports.append(transport)
        return transport, protocol

    def cut(self):
        for transport in self.transports:
            transport.abort()


async def limited(test, host):
    """Runs a test for as long as its host runs, and for 30 seconds at most. Then cuts the connections that it left open.

    The end of a loop cancels the tasks that are left. Such a task of websockets waits ten seconds for its peer to close the
    connection, so no connection may be open then.
    """
    loop, test = asyncio.get_running_loop(), asyncio.ensure_future(test)
    end = loop.time() + LIMIT
    try:
        while not test.done() and loop.time() < end and not (host and host.has_ended()):
            await asyncio.wait({test}, timeout=0.1)
    finally:
        unfinished = test.cancel()
        loop.cut()
    await asyncio.wait({test}, timeout=1)
    try:
        return test.result()
    except BaseException as error:
        if host and (unfinished or not host.fault_told) and (host.has_ended(within=0.1) or unfinished and host.is_silent()):
            raise host.fault().with_traceback(error.__traceback__) from None
        if unfinished:
            raise TimeoutError(f"the test took more than {LIMIT} seconds").with_traceback(error.__traceback__) from None
        raise


@pytest.hookimpl(tryfirst=True)
def pytest_pyfunc_call(pyfuncitem):
    """Runs a test that is a coroutine, in a loop of its own."""
    __tracebackhide__ = True
    if not inspect.iscoroutinefunction(pyfuncitem.obj):
        return None
    wanted = inspect.signature(pyfuncitem.obj).parameters
    test = pyfuncitem.obj(**{name: pyfuncitem.funcargs[name] for name in wanted})
    with asyncio.Runner(loop_factory=Loop) as runner:
        runner.run(limited(test, pyfuncitem.funcargs.get("host")))
    return True
