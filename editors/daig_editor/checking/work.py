"""Checks files side by side, and hands them over in their order."""
from __future__ import annotations

import asyncio
from typing import AsyncGenerator, Callable

from daig_editor.checking.alone import Check, late_words
from daig_editor.checking.sources import Source
from daig_editor.reports.finding import CheckedFile, troubled
from daig_editor.server.ending import cancelled, undisturbed

# Checks that are not wanted any longer are waited for at most so many seconds.
LONGEST_END = 5.0


async def in_order(
    sources: list[Source], jobs: int, check: Check, done: Callable[[str], None], seconds: float
) -> AsyncGenerator[CheckedFile, None]:
    """Each file as soon as it and those before it are checked; `done` is told of each as it is checked.

    A check that takes longer than so many seconds is ended.
    """
    turn = asyncio.Semaphore(jobs)

    async def one(source: Source) -> CheckedFile:
        async with turn:
            checked = await _checked(source, check, seconds)
        done(source.name)
        return checked

    tasks = [asyncio.create_task(one(it)) for it in sources]
    try:
        for task in tasks:
            yield await task
    finally:
        await undisturbed(cancelled(tasks, LONGEST_END))


async def _checked(source: Source, check: Check, seconds: float) -> CheckedFile:
    """A file with what is told of it. Whatever happens, a file that could not be checked says so."""
    if source.trouble:
        return troubled(source.name, source.trouble)
    try:
        return await _in_time(source, check, seconds)
    except OSError as error:
        return troubled(source.name, error.strerror or str(error))
    except Exception as error:  # a fault of this program must not end the others' checks, nor look like a clean file
        return troubled(source.name, f"a fault of daig-check itself: {type(error).__name__}: {error}")


async def _in_time(source: Source, check: Check, seconds: float) -> CheckedFile:
    """A file that is checked within a time, or that says that it was not."""
    task = asyncio.ensure_future(check(source))
    try:
        done, _ = await asyncio.wait([task], timeout=seconds)
        if done:
            return task.result()
    finally:
        await undisturbed(cancelled([task], LONGEST_END))
    return troubled(source.name, late_words(seconds))
