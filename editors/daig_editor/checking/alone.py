"""Checks one file with nothing beside it."""
from __future__ import annotations

import signal
from types import FrameType
from typing import Any, Callable, Coroutine

from daig_editor.checking.sources import Source
from daig_editor.reports.finding import CheckedFile, troubled
from daig_editor.reports.tool import NAME
from daig_editor.server.blocking import driven

Check = Callable[[Source], Coroutine[Any, Any, CheckedFile]]


class _TimeIsUp(BaseException):
    """The check took too long."""


def checked_alone(source: Source, check: Check, seconds: float) -> CheckedFile:
    """A file with what is told of it. Whatever happens, a file that could not be checked says so."""
    if source.trouble:
        return troubled(source.name, source.trouble)

    def late(_number: int, _frame: FrameType | None) -> None:
        """The time is up."""
        raise _TimeIsUp

    before = signal.signal(signal.SIGALRM, late)
    signal.setitimer(signal.ITIMER_REAL, seconds)
    try:
        return driven(check(source))
    except _TimeIsUp:
        return troubled(source.name, late_words(seconds))
    except OSError as error:
        return troubled(source.name, error.strerror or str(error))
    except Exception as error:  # a fault of this program must not look like a clean file
        return troubled(source.name, f"a fault of {NAME} itself: {type(error).__name__}: {error}")
    finally:
        signal.setitimer(signal.ITIMER_REAL, 0)
        signal.signal(signal.SIGALRM, before)


def late_words(seconds: float) -> str:
    """Why a file that took too long is not checked."""
    return f"it was not checked within {seconds:g} seconds; --timeout gives it more"
