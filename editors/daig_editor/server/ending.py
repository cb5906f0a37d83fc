"""Waits that end, and that never take a cancellation for something else.

`asyncio.wait_for` of Python 3.11 drops a cancellation that comes with the end of what it waits for, and a start of a
process that is cancelled in its middle may wait for ever. So neither is done here.
"""
from __future__ import annotations

import asyncio
from typing import Any, Coroutine, Iterable, TypeVar

Result = TypeVar("Result")
# What is cancelled is cancelled again each time that so many seconds have gone.
CANCEL_EVERY = 0.25


async def within(seconds: float, work: Coroutine[Any, Any, object]) -> bool:
    """Whether some work ends within a time, after which it is cancelled. What it raises is raised."""
    task = asyncio.ensure_future(work)
    try:
        done, _ = await asyncio.wait([task], timeout=seconds)
    finally:
        task.cancel()
    for it in done:
        it.result()
    return bool(done)


async def undisturbed(work: Coroutine[Any, Any, Result]) -> Result:
    """The result of short work that is never left in its middle: a cancellation comes at the next wait after it."""
    task = asyncio.ensure_future(work)
    cancelled = False
    while not task.done():
        try:
            await asyncio.wait([task])
        except asyncio.CancelledError:
            cancelled = True
    current = asyncio.current_task()
    if cancelled and current:
        current.cancel()
    return task.result()


async def cancelled(tasks: Iterable[asyncio.Task[Any]], seconds: float) -> set[asyncio.Task[Any]]:
    """Cancels tasks until they have ended; answers those that still run after a time."""
    running = {it for it in tasks if not it.done()}
    while running and seconds > 0:
        for it in running:
            it.cancel()
        _, running = await asyncio.wait(running, timeout=min(seconds, CANCEL_EVERY))
        seconds -= CANCEL_EVERY
    return running
