"""Work ends when it is told to, whatever is being done, and nothing waits for what never comes."""
from __future__ import annotations

import asyncio
import os
import signal
import subprocess
import tempfile
import time
from contextlib import contextmanager
from pathlib import Path
from typing import Awaitable, Callable, Iterator

from daig_editor.language.places import SourceText
from daig_editor.language.records import replace
from daig_editor.server.document import Document
from daig_editor.server.ending import cancelled, undisturbed, within
from daig_editor.server.process import DaigProcess, Settings
from daig_editor.server.stages import Stages
from daig_editor.server.watching import Options
from tests.client import Client
from tests.program import program
from tests.small import FAILING, URI, codes, kill_servers, opened, script, servers

LONGEST = 20
# A program whose assertion octagons prove and intervals do not.
RELATED = "proc main() {\n  var i: int;\n  var n: int;\n  n = input;\n  i = n;\n  assert i == n;\n}\n"


class Silent:
    """A watcher who keeps what is logged."""

    def __init__(self) -> None:
        self.logged: list[str] = []

    def publish(self, document: Document) -> None:
        """Nothing."""

    def work(self, document: Document, words: str | None, percent: int) -> None:
        """Nothing."""

    def log(self, text: str) -> None:
        """Keeps it."""
        self.logged.append(text)

    def show(self, text: str) -> None:
        """Keeps it too."""
        self.logged.append(text)

    show_once = show


@contextmanager
def bounded(what: object) -> Iterator[None]:
    """Fails where something takes too long."""

    def late(*_: object) -> None:
        """It did."""
        raise AssertionError(f"it does not end: {what}")

    before = signal.signal(signal.SIGALRM, late)
    signal.alarm(LONGEST)
    try:
        yield
    finally:
        signal.alarm(0)
        signal.signal(signal.SIGALRM, before)


async def turns(many: int) -> None:
    """Lets the other tasks run so many turns."""
    for _ in range(many):
        await asyncio.sleep(0)


def document(watcher: Silent, settings: Settings) -> Document:
    """An open file whose first server is to be started."""
    return Document(URI, SourceText.of(RELATED.encode(), False), 1, Options(settings), watcher)


def test_change_at_the_end_of_a_rest() -> None:
    """A change between the end of the wait for a rest and the moment at which its waiter goes on is seen."""

    async def rested() -> bool:
        """Whether a text rests that changes just then."""
        stages = Stages(lambda: False)

        def change() -> None:
            """The text is another one."""
            stages.changes += 1
            stages.wake()

        waiting = asyncio.create_task(stages.rests(0, 0.05))
        await asyncio.sleep(0)  # it waits
        asyncio.get_running_loop().call_later(0.06, change)
        time.sleep(0.1)  # both times pass: the loop ends the wait, makes the change, then goes on with the waiter
        return await waiting

    assert not asyncio.run(rested())


def test_closed_at_any_time() -> None:
    """A file that is closed at any moment of its work leaves no task and no server behind."""

    async def closed_after(waited: Callable[[], Awaitable[None]]) -> None:
        """Opens a file, waits, and closes it."""
        watcher = Silent()
        opened_file = document(watcher, Settings(program()))
        await waited()
        await opened_file.close()
        others = asyncio.all_tasks() - {asyncio.current_task()}
        assert not others or not (await asyncio.wait(others, timeout=LONGEST))[1]
        assert watcher.logged == [], watcher.logged

    for many in range(40):
        with bounded(f"after {many} turns"):
            asyncio.run(closed_after(lambda: turns(many)))
    for milliseconds in range(0, 400, 20):
        with bounded(f"after {milliseconds} ms"):
            asyncio.run(closed_after(lambda: asyncio.sleep(milliseconds / 1000)))
    assert _children() == []


def _children() -> list[str]:
    """The processes that this one started and that still run, but for the one that lists them."""
    words = ["ps", "-o", "pid=,args=", "--ppid", str(os.getpid())]
    lines = subprocess.run(words, capture_output=True, text=True, check=True).stdout.splitlines()
    return [it for it in lines if " serve " in it]


def test_end_of_run_at_any_time() -> None:
    """A run of the loop ends soon after a file is closed, although its settings just became others.

    Python 3.11 drops a cancellation that comes with the end of a wait for a time; the worker then went on and started
    another server, whose start the end of the run cut in its middle, which never ended.
    """

    async def left_after(first: int, then: int) -> None:
        """Lets a file rest, changes its settings, and closes it."""
        settings = Settings(program())
        opened_file = document(Silent(), settings)
        await opened_file.judged()
        await turns(5)
        await opened_file.reload(Options(replace(settings, budget=50)))
        await turns(first)
        await opened_file.close()
        await turns(then)

    for first in range(4):
        for then in range(12):
            with bounded(f"after {first} and {then} turns"):
                asyncio.run(left_after(first, then))
    assert _children() == []


def test_other_settings_at_any_time() -> None:
    """Settings that come at any moment of a start are those of the server that is asked."""

    async def reloaded_after(many: int) -> None:
        """Opens a file by intervals, and changes to octagons."""
        settings = Settings(program(), "interval")
        opened_file = document(Silent(), settings)
        await turns(many)
        await opened_file.reload(Options(replace(settings, domain="octagon")))
        await opened_file.judged()
        assert opened_file.report and opened_file.report.findings == [], many
        await opened_file.close()

    for many in range(0, 60, 2):
        with bounded(f"after {many} turns"):
            asyncio.run(reloaded_after(many))


def test_exit_at_once() -> None:
    """A client that says exit right after it opened or changed a file, or its settings, sees the end."""
    for text in ("", "\n", "// more\n"):
        client = Client({"daig": program(), "domain": "interval"})
        client.open(URI, RELATED)
        if text:
            client.diagnostics(1)
            client.change(URI, 2, [{"text": RELATED + text}])
            client.notify("workspace/didChangeConfiguration", {"settings": {"daig": program()}})
        client.close()


def test_output_held_open() -> None:
    """A server whose output another program holds open is seen to end, is started anew, and can be left."""
    with tempfile.TemporaryDirectory() as folder:
        holding = script(folder, f"setsid sleep 60 &\nexec {program()} \"$@\"\n")
        client, told = opened({"daig": holding}, FAILING)
        assert codes(told) == ["assert"]
        client.published(1, lambda told: told[0]["severity"] == 1)  # the text rests
        before = servers(client)
        kill_servers(client)
        killed = time.monotonic()
        assert codes(client.diagnostics(1)) == ["assert"] and servers(client) != before
        assert time.monotonic() - killed < LONGEST
        client.close()


def test_start_is_not_cut() -> None:
    """A start that is cancelled at any moment ends, and its server with it."""

    async def cut_after(folder: str, many: int) -> None:
        """Starts a server, and cancels that."""
        path = Path(folder, "small.imp")
        path.write_text(FAILING)
        task = asyncio.create_task(DaigProcess.start(Settings(program()), path.read_bytes()))
        await turns(many)
        for _ in range(3):
            task.cancel()
            await turns(1)
        await asyncio.wait([task])
        if not task.cancelled():
            await task.result().stop()

    with tempfile.TemporaryDirectory() as folder:
        for many in range(30):
            with bounded(f"after {many} turns"):
                asyncio.run(cut_after(folder, many))
    assert _children() == []


def test_waits() -> None:
    """Waits for a time, for what is not to be cut, and for what is cancelled."""

    async def stubborn(times: int) -> int:
        """Ends when it was cancelled so many times."""
        for _ in range(times):
            try:
                await asyncio.sleep(LONGEST)
            except asyncio.CancelledError:
                pass
        return times

    async def waits() -> None:
        """All of them."""
        assert await within(LONGEST, asyncio.sleep(0)) and not await within(0.01, asyncio.sleep(LONGEST))
        task = asyncio.create_task(stubborn(3))
        await turns(1)
        assert await cancelled([task], LONGEST) == set() and task.result() == 3
        endless = asyncio.create_task(stubborn(1000))
        await turns(1)
        assert await cancelled([endless], 0.3) == {endless}
        whole = asyncio.create_task(_whole())
        await turns(2)
        whole.cancel()
        await asyncio.wait([whole])
        assert whole.cancelled()
        while not endless.done():
            endless.cancel()
            await turns(1)

    async def _whole() -> None:
        """Something that is not cut, after which the cancellation comes."""
        assert await undisturbed(asyncio.sleep(0.05, "whole")) == "whole"
        await asyncio.sleep(LONGEST)

    with bounded("waits"):
        asyncio.run(waits())
