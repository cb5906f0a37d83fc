"""One running `daig serve`: started on a text, then asked line by line."""
from __future__ import annotations

import asyncio
import json
import os
import tempfile
import time
from collections import deque
from typing import IO

from daig_editor.server.child import Child, started
from daig_editor.server.ending import within
from daig_editor.server.serving import LONGEST_REPLY, LONGEST_SILENCE
from daig_editor.server.serving import STATUS_WORDS as STATUS_WORDS
from daig_editor.server.serving import Gone as Gone
from daig_editor.server.serving import NotStarted as NotStarted
from daig_editor.server.serving import Refused as Refused
from daig_editor.server.serving import Reply as Reply
from daig_editor.server.serving import Settings as Settings
from daig_editor.server.serving import bound_memory, gone_with, greeted, reply_of, text_file

# Of what a program says before it ends in its start, so many last bytes are looked at.
LONGEST_LAST_LINE = 500


class DaigProcess:
    """A server that runs. Requests are sent as they are asked, and answered in that order."""

    def __init__(self, process: Child, settings: Settings) -> None:
        self._process = process
        self._settings = settings
        self._waiting: deque[asyncio.Future[Reply]] = deque()
        self._gone: Gone | None = None
        self._heard = 0.0
        self._watch: asyncio.TimerHandle | None = None
        self._reader = asyncio.ensure_future(self._read_replies())

    @staticmethod
    async def start(settings: Settings, text: bytes) -> DaigProcess:
        """Starts a server on a text; raises `Refused` or `NotStarted`."""
        with text_file(text) as path:
            return await _greeted(settings, path)

    async def greet(self) -> None:
        """Waits until the text is loaded, then bounds the memory."""
        try:
            reply = await self.ask(do="cost")
        except Gone as gone:
            raise NotStarted(str(gone)) from None
        greeted(reply, self._settings)
        bound_memory(self._process.pid, self._settings)

    async def ask(self, **request: object) -> Reply:
        """The reply to a request; raises `Gone`. A request is answered even where its asker has gone."""
        reply: asyncio.Future[Reply] = asyncio.get_running_loop().create_future()
        self._send(request, reply)
        return await reply

    def tell(self, **request: object) -> None:
        """Sends a request whose reply nobody wants."""
        reply: asyncio.Future[Reply] = asyncio.get_running_loop().create_future()
        reply.cancel()
        if self._gone is None:
            self._send(request, reply)

    def _send(self, request: dict[str, object], reply: asyncio.Future[Reply]) -> None:
        """Sends a request; raises `Gone`. The reply comes later."""
        if self._gone:
            raise Gone(str(self._gone), self._gone.of_memory)
        assert self._process.stdin
        if not self._waiting:
            self._heard = time.monotonic()
            if self._settings.patience and self._watch is None:
                self._look_after(self._settings.patience)
        self._waiting.append(reply)
        self._process.stdin.write(json.dumps(request).encode() + b"\n")

    def _look_after(self, seconds: float) -> None:
        """Looks after a while whether the server still answers."""
        self._watch = asyncio.get_running_loop().call_later(seconds, self._look)

    def _look(self) -> None:
        """Gives a server up that has not answered for too long."""
        self._watch = None
        left = self._heard + self._settings.patience - time.monotonic()
        if not self._waiting:
            return
        if left > 0:
            self._look_after(left)
            return
        self._end(Gone(f"it did not answer within {self._settings.patience} seconds"))
        self._reader.cancel()
        self._stopping = asyncio.ensure_future(self.stop())

    async def _read_replies(self) -> None:
        """Hands each reply to who waits for it, until the server ends."""
        try:
            while True:
                reply = await self._next_reply()
                self._heard = time.monotonic()
                waiting = self._waiting.popleft()
                if not waiting.done():
                    waiting.set_result(reply)
        except Gone as gone:
            self._end(gone)
        except Exception as error:  # whatever it is, nobody waits for ever
            self._end(Gone(f"its replies cannot be read: {error!r}"))

    def _end(self, gone: Gone) -> None:
        """Nothing more is answered."""
        self._gone = gone
        for waiting in self._waiting:
            if not waiting.done():
                waiting.set_exception(Gone(str(gone), gone.of_memory))
        self._waiting.clear()

    async def _next_reply(self) -> Reply:
        """The next line that the server says; raises `Gone`."""
        assert self._process.stdout
        try:
            line = await self._process.stdout.readline()
        except ValueError:
            raise await self._given_up(f"a reply of it has more than {LONGEST_REPLY:,} bytes") from None
        if not line.endswith(b"\n"):
            raise await self._why_gone()
        reply = reply_of(line)
        if reply is None or not self._waiting:
            raise await self._given_up(f"what it says is no reply: {line[:80]!r}")
        return reply

    async def _given_up(self, words: str) -> Gone:
        """Ends a server that says what no server says."""
        await self.stop()
        return Gone(words)

    async def _why_gone(self) -> Gone:
        """What the server's status says."""
        return gone_with(await self.ended())

    @property
    def runs(self) -> bool:
        """Whether it has not ended, as far as is known."""
        return self._process.returncode is None

    async def ended(self) -> int:
        """Waits for its end; answers its status."""
        if not await within(LONGEST_SILENCE, self._process.wait()):  # it closed its output and runs on
            await self.stop()
        return await self._process.wait()

    async def wait(self) -> None:
        """Waits for its end, however long."""
        await self._process.wait()

    async def stop(self) -> None:
        """Ends the server, in the middle of a request too."""
        await self._process.stop()


async def _greeted(settings: Settings, path: str) -> DaigProcess:
    """Starts the program on a file, and waits until it is loaded; raises `NotStarted` with what it said last."""
    with tempfile.TemporaryFile() as said:
        server = DaigProcess(await _spawned(settings, path, said.fileno()), settings)
        try:
            await server.greet()
        except NotStarted as why:
            await server.stop()
            raise NotStarted(f"{why}{_last_line(said)}") from None
        except BaseException:
            await server.stop()
            raise
    return server


def _last_line(said: IO[bytes]) -> str:
    """The last line of what was said, with what stands between it and other words."""
    said.seek(max(0, said.seek(0, os.SEEK_END) - LONGEST_LAST_LINE))
    lines = said.read().decode("utf-8", "replace").split("\n")
    last = next((it.strip() for it in reversed(lines) if it.strip()), "")
    return f": {last}" if last else ""


async def _spawned(settings: Settings, path: str, said: int) -> Child:
    """Starts the program, whose standard error goes to an open file; raises `NotStarted`."""
    pipe = asyncio.subprocess.PIPE
    try:
        return await started(settings.words(path), pipe, pipe, LONGEST_REPLY, said)
    except OSError as error:
        raise NotStarted(f"{settings.daig}: {error.strerror}") from None
    except ValueError as error:  # a NUL
        raise NotStarted(f"{settings.daig!r}: {error}") from None
