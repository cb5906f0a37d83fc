"""How daig-check ends by a signal."""
from __future__ import annotations

import os
import signal
from typing import NoReturn

from daig_editor.reports.finding import TROUBLE


class Stopped(BaseException):
    """A signal asked for the end; all servers have ended."""

    def __init__(self, number: signal.Signals) -> None:
        super().__init__(number.name)
        self.number = number


def end_by(number: signal.Signals) -> NoReturn:
    """Ends as a process does that does not handle the signal, so that a shell or make sees it."""
    signal.signal(number, signal.SIG_DFL)
    os.kill(os.getpid(), number)
    raise SystemExit(TROUBLE)
