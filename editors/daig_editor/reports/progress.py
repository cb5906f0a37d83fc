"""What is said on standard error: how far the work is, where that is a terminal, and a last line."""
from __future__ import annotations

import contextlib
import sys
from typing import TextIO

from daig_editor.reports.shown import shown
from daig_editor.reports.tool import NAME

CLEAR = "\r\x1b[K"


class Progress:
    """The line `[12/200] file`. What cannot be said is left: the report is what counts."""

    def __init__(self, total: int, quiet: bool) -> None:
        self._total = total
        self._stream: TextIO | None = None if quiet else sys.stderr
        self._live = self._stream is not None and self._stream.isatty()
        self._done = 0

    def done(self, name: str) -> None:
        """A file is checked."""
        self._done += 1
        if self._live:
            import shutil

            columns = shutil.get_terminal_size().columns
            self._say(CLEAR + f"[{self._done}/{self._total}] {shown(name)}"[: columns - 1])

    def clear(self) -> None:
        """Makes room for a line of the report."""
        if self._live:
            self._say(CLEAR)

    def note(self, words: str) -> None:
        """What is wrong with the work, but with no file; it is said where there is no progress too."""
        self.clear()
        if sys.stderr:
            with contextlib.suppress(OSError, ValueError):
                print(f"{NAME}: {words}", file=sys.stderr, flush=True)

    def end(self, summary: str) -> None:
        """The last line."""
        self.clear()
        self._say(f"{summary}\n")

    def _say(self, text: str) -> None:
        """Writes, if that can be."""
        if self._stream is None:
            return
        with contextlib.suppress(OSError, ValueError):
            self._stream.write(text)
            self._stream.flush()
