"""Runs the program once, for a single answer."""
from __future__ import annotations

import asyncio
import contextlib
import resource

from daig_editor.server.child import Child, started
from daig_editor.server.process import NotStarted, Settings

LONGEST_ANSWER = 65_536
MEBIBYTE = 2**20


async def run_once(settings: Settings, words: list[str], output: int | None = None) -> tuple[int, bytes]:
    """The status of a run with these words, and what it writes, or nothing where that goes to an open file."""
    process = await _started(settings, words, asyncio.subprocess.PIPE if output is None else output)
    try:
        answer = await _answer(process.stdout) if process.stdout else b""
        return await process.wait(), answer
    finally:
        if process.returncode is None:
            await process.stop()


async def _answer(stream: asyncio.StreamReader) -> bytes:
    """All that a program writes, which is short; raises `NotStarted` where it is not."""
    try:
        await stream.readexactly(LONGEST_ANSWER)
    except asyncio.IncompleteReadError as ended:
        return ended.partial
    raise NotStarted("what it answers is too long")


async def _started(settings: Settings, words: list[str], output: int) -> Child:
    """Starts the program, with a limit of its memory; raises `NotStarted`."""
    try:
        process = await started([settings.daig, *words], asyncio.subprocess.DEVNULL, output)
    except (OSError, ValueError) as error:
        raise NotStarted(f"{settings.daig}: {error}") from None
    limit = settings.memory * MEBIBYTE
    if limit and hasattr(resource, "prlimit"):
        with contextlib.suppress(OSError, ValueError):
            resource.prlimit(process.pid, resource.RLIMIT_AS, (limit, limit))
    return process
