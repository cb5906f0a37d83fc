"""daig-check: checks files on the command line, for people, review tools and builds.

Whatever happens, the status is 0 only where every file was checked, nothing was found, and the report was written.
"""
from __future__ import annotations

import contextlib
import os
import signal
import sys
from types import FrameType

from daig_editor.checking.baseline import BadBaseline
from daig_editor.checking.configuration import BadConfiguration
from daig_editor.checking.program import NoProgramFound
from daig_editor.commands.check_run import Run, Wrong
from daig_editor.commands.check_words import parsed
from daig_editor.commands.stopping import Stopped, end_by
from daig_editor.reports.finding import TROUBLE
from daig_editor.reports.output import StreamOutput
from daig_editor.reports.tool import NAME

def main(words: list[str] | None = None) -> int:
    """The status of the process."""
    _keep_standard_streams()
    try:
        args = parsed(words)
        if sys.stdout is None and (args.says or not args.output):
            return _fail("standard output is closed")
        if args.says:
            StreamOutput(sys.stdout.buffer).write(args.says)
            return 0
        return _status_of(Run(args))
    except (Wrong, BadBaseline, BadConfiguration, NoProgramFound) as why:
        return _fail(str(why))
    except BrokenPipeError:
        return _fail("")
    except OSError as error:
        return _fail(f"the report could not be written: {error.strerror or error}")
    except KeyboardInterrupt:
        end_by(signal.SIGINT)
    except Stopped as stopped:
        end_by(stopped.number)
    except Exception as error:  # the status 1 of an uncaught one would say that a check may fail
        return _fail(f"a fault of {NAME} itself: {type(error).__name__}: {error}")


def _keep_standard_streams() -> None:
    """Keeps the numbers of closed standard streams from being those of other files."""
    with contextlib.suppress(OSError):
        number = 0
        while number < 3:
            number = os.open(os.devnull, os.O_RDWR)
        os.close(number)


def _fail(words: str) -> int:
    """Says why, and leaves nothing that Python would try to write at the end."""
    if words and sys.stderr:
        with contextlib.suppress(OSError, ValueError):
            print(f"{NAME}: {words}", file=sys.stderr)
    with contextlib.suppress(OSError, ValueError, AttributeError):
        os.dup2(os.open(os.devnull, os.O_WRONLY), sys.stdout.fileno())
    return TROUBLE


def _status_of(run: Run) -> int:
    """Does all, and answers the status; raises `Stopped` where a signal comes."""
    if not run.is_alone:
        from daig_editor.commands.side_by_side import status_of

        return status_of(run)

    def stop(number: int, _frame: FrameType | None) -> None:
        """The first signal ends the work; its end is not cut by others."""
        for it in before:
            signal.signal(it, signal.SIG_IGN)
        raise Stopped(signal.Signals(number))

    before = {number: signal.getsignal(number) for number in (signal.SIGINT, signal.SIGTERM)}
    for number in before:
        signal.signal(number, stop)
    try:
        return run.run_alone()
    finally:
        for number, handler in before.items():
            signal.signal(number, handler)
