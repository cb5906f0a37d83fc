"""A `daig serve` that is asked and waited for, without asyncio: for a check of one file, which has nothing else to do."""
from __future__ import annotations

import json
import os
import signal
import subprocess
from contextlib import suppress
from typing import Any, Coroutine, TypeVar

from daig_editor.server.serving import (
    LONGEST_REPLY,
    LONGEST_SILENCE,
    Gone,
    NotStarted,
    Reply,
    Settings,
    bound_memory,
    gone_with,
    greeted,
    reply_of,
    text_file,
)

Result = TypeVar("Result")


class BlockingProcess:
    """A server that runs, in a session of its own. What it is asked is answered before anything else is done."""

    def __init__(self, process: subprocess.Popen[bytes]) -> None:
        self._process = process

    @staticmethod
    async def start(settings: Settings, text: bytes) -> BlockingProcess:
        """Starts a server on a text; raises `Refused` or `NotStarted`."""
        with text_file(text) as path:
            server = BlockingProcess(_spawned(settings, path))
            try:
                try:
                    greeted(await server.ask(do="cost"), settings)
                except Gone as gone:
                    raise NotStarted(str(gone)) from None
            except BaseException:
                await server.stop()
                raise
        bound_memory(server._process.pid, settings)
        return server

    async def ask(self, **request: object) -> Reply:
        """The reply to a request; raises `Gone`."""
        assert self._process.stdin and self._process.stdout
        with suppress(OSError):  # it has ended, as is seen below
            self._process.stdin.write(json.dumps(request).encode() + b"\n")
            self._process.stdin.flush()
        line = self._process.stdout.readline(LONGEST_REPLY)
        if not line.endswith(b"\n"):
            raise await self._why_gone(line)
        reply = reply_of(line)
        if reply is None:
            await self.stop()
            raise Gone(f"what it says is no reply: {line[:80]!r}")
        return reply

    async def _why_gone(self, line: bytes) -> Gone:
        """Why it says nothing more, or says too much."""
        if len(line) == LONGEST_REPLY:
            await self.stop()
            return Gone(f"a reply of it has more than {LONGEST_REPLY:,} bytes")
        with suppress(subprocess.TimeoutExpired):
            return gone_with(self._process.wait(LONGEST_SILENCE))
        await self.stop()  # it closed its output and runs on
        return gone_with(self._process.wait())

    async def stop(self) -> None:
        """Ends the server, and all that it started in its session."""
        if self._process.poll() is None:
            with suppress(ProcessLookupError, PermissionError):
                os.killpg(self._process.pid, signal.SIGKILL)
        for pipe in (self._process.stdin, self._process.stdout):
            with suppress(OSError):
                if pipe:
                    pipe.close()
        self._process.wait()


def _spawned(settings: Settings, path: str) -> subprocess.Popen[bytes]:
    """Starts the program; raises `NotStarted`."""
    pipe = subprocess.PIPE
    try:
        return subprocess.Popen(
            settings.words(path),
            stdin=pipe,
            stdout=pipe,
            stderr=subprocess.DEVNULL,
            start_new_session=True,
            restore_signals=False,  # a write that fails is to be seen by the program
        )
    except OSError as error:
        raise NotStarted(f"{settings.daig}: {error.strerror}") from None
    except ValueError as error:  # a NUL
        raise NotStarted(f"{settings.daig!r}: {error}") from None


def driven(work: Coroutine[Any, Any, Result]) -> Result:
    """The result of work that waits for nothing but such servers."""
    try:
        work.send(None)
    except StopIteration as done:
        result: Result = done.value
        return result
    work.close()
    raise RuntimeError("this work waits for something else")
