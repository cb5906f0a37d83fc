"""Programs that are started: each in a session of its own, and ended with all that it started."""
from __future__ import annotations

import asyncio
import contextlib
import os
import signal
from asyncio.subprocess import SubprocessStreamProtocol

from daig_editor.server.ending import undisturbed

# What a program wrote is read for so many seconds after its end, where another one holds its output open.
LAST_WORDS = 1.0
LONGEST_LINE = 65_536


class Child(asyncio.subprocess.Process):
    """A program that was started. Its end is seen although another one, which it started, holds its output open."""

    def __init__(self, transport: asyncio.SubprocessTransport, protocol: SubprocessStreamProtocol) -> None:
        super().__init__(transport, protocol, asyncio.get_running_loop())
        self._child = transport

    async def stop(self) -> None:
        """Ends it, and all that it started in its session; this is not left in its middle."""
        if self.returncode is None:
            with contextlib.suppress(ProcessLookupError, PermissionError):
                os.killpg(self.pid, signal.SIGKILL)
        _close_pipes(self._child)
        await undisturbed(self.wait())


class _Streams(SubprocessStreamProtocol):
    """The streams of a program, which end soon after it."""

    def connection_made(self, transport: asyncio.BaseTransport) -> None:
        """The program runs."""
        super().connection_made(transport)
        self._child = transport

    def process_exited(self) -> None:
        """The program has ended."""
        super().process_exited()
        if isinstance(self._child, asyncio.SubprocessTransport):
            asyncio.get_running_loop().call_later(LAST_WORDS, _close_pipes, self._child)


def _close_pipes(child: asyncio.SubprocessTransport) -> None:
    """Closes what is written to and read from a program, for whose end asyncio waits until they are closed."""
    for number in (0, 1):
        pipe = child.get_pipe_transport(number)
        if isinstance(pipe, asyncio.WriteTransport):
            if not pipe.is_closing() or pipe.get_write_buffer_size():
                pipe.abort()
        elif pipe:
            pipe.close()


async def started(
    words: list[str], stdin: int, stdout: int, longest_line: int = LONGEST_LINE, stderr: int = asyncio.subprocess.DEVNULL
) -> Child:
    """Starts a program; raises `OSError`, or `ValueError` for words that no program can have."""
    return await undisturbed(_started(words, stdin, stdout, longest_line, stderr))


async def _started(words: list[str], stdin: int, stdout: int, longest_line: int, stderr: int) -> Child:
    """Starts a program. A cancellation in the middle of it may never end."""
    loop = asyncio.get_running_loop()
    transport, protocol = await loop.subprocess_exec(
        lambda: _Streams(longest_line, loop),
        *words,
        stdin=stdin,
        stdout=stdout,
        stderr=stderr,
        start_new_session=True,
        restore_signals=False,  # a write that fails is to be seen by the program, and not to end it by a signal
    )
    return Child(transport, protocol)
