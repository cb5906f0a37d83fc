"""A run of daig-check over files that are checked side by side."""
from __future__ import annotations

import asyncio
import contextlib
import os
import signal
import sys
from types import FrameType

from daig_editor.commands.check_run import Run
from daig_editor.commands.stopping import Stopped, end_by

# The work that a signal ends has so many seconds for its end; then the process ends whatever it does.
LONGEST_END = 10.0


def status_of(run: Run) -> int:
    """Does all, and answers the status; raises `Stopped` where a signal comes."""
    _watch_without_threads()
    return asyncio.run(_until_stopped(run))


def _watch_without_threads() -> None:
    """Lets Python before 3.12 wait for the end of a server without a thread for each, where the system can."""
    if sys.version_info < (3, 12) and hasattr(os, "pidfd_open"):
        with contextlib.suppress(OSError):
            os.close(os.pidfd_open(os.getpid()))
            asyncio.set_child_watcher(asyncio.PidfdChildWatcher())


async def _until_stopped(run: Run) -> int:
    """Does all, and answers the status; raises `Stopped` where a signal comes, once all that was begun has ended."""
    loop, work = asyncio.get_running_loop(), asyncio.ensure_future(run.run())
    signals: list[signal.Signals] = []

    def late(_number: int, _frame: FrameType | None) -> None:
        """The work does not end: it waits for what never comes, as a pipe that nobody reads."""
        end_by(signals[0])

    def stop(number: int, _frame: FrameType | None) -> None:
        """The first signal ends the work; its end is not cut by others, but it must come."""
        if not signals:
            loop.call_soon_threadsafe(work.cancel)
            signal.signal(signal.SIGALRM, late)
            signal.setitimer(signal.ITIMER_REAL, LONGEST_END)
        signals.append(signal.Signals(number))

    # A handler of the loop would not be called while the process waits in a call of the system.
    before = {number: signal.signal(number, stop) for number in (signal.SIGINT, signal.SIGTERM)}
    try:
        return await work
    except asyncio.CancelledError:
        if signals:
            raise Stopped(signals[0]) from None
        raise
    finally:
        signal.setitimer(signal.ITIMER_REAL, 0)
        for number, handler in before.items():
            signal.signal(number, handler)
