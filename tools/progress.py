"""Telling on standard error what is done, at least every twenty seconds, and ending what was started."""
from __future__ import annotations

import os
import signal
import subprocess
import sys
import threading
import time
from types import FrameType
from typing import IO, Any, Callable, Mapping

HEARTBEAT = 15
SHOWN = 20


def say(words: str) -> None:
    """A line on standard error, which may be closed."""
    try:
        print(f"daig: {words}", file=sys.stderr, flush=True)
    except OSError:
        pass


def minutes(seconds: float) -> str:
    """A time as people tell it."""
    seconds = int(seconds)
    return f"{seconds} s" if seconds < 60 else f"{seconds // 60} min {seconds % 60:02d} s"


class Progress:
    """Says the phase when it changes, and that it goes on while nothing else is said."""

    def __init__(self) -> None:
        self.began, self.words = time.monotonic(), ""
        self.detail: Callable[[], str] = str
        self._ended = threading.Event()
        self._said = self.began
        threading.Thread(target=self._beat, daemon=True).start()

    def gone(self) -> str:
        return minutes(time.monotonic() - self.began)

    def phase(self, words: str, detail: Callable[[], str] = str) -> None:
        self.words, self.detail = words, detail
        self._tell()

    def _tell(self) -> None:
        self._said = time.monotonic()
        more = self.detail()
        say(f"{self.words}{more and ', ' + more} ({self.gone()} gone)")

    def _beat(self) -> None:
        while not self._ended.wait(1):
            if self.words and time.monotonic() - self._said >= HEARTBEAT:
                self._tell()

    def end(self) -> None:
        self._ended.set()


class Interrupted(BaseException):
    """A signal asked for the end."""

    def __init__(self, number: int) -> None:
        super().__init__(number)
        self.status = 128 + number


def interruptible() -> None:
    """Makes the signals that ask for the end raise, so that what was started is ended and what was made removed."""

    def interrupt(number: int, _: FrameType | None) -> None:
        for it in (signal.SIGINT, signal.SIGTERM, signal.SIGHUP):
            signal.signal(it, signal.SIG_IGN)
        raise Interrupted(number)

    for it in (signal.SIGINT, signal.SIGTERM, signal.SIGHUP):
        signal.signal(it, interrupt)


class Children:
    """Commands in process groups of their own, which end with this process."""

    def __init__(self, log: IO[str] | int) -> None:
        self.log, self.lock, self.closed = log, threading.Lock(), False
        self.running: set[subprocess.Popen[str]] = set()

    def start(
        self,
        words: list[str],
        cwd: str | None = None,
        env: Mapping[str, str] | None = None,
        is_read: bool = False,
    ) -> subprocess.Popen[str]:
        """Starts a command, whose output goes to the log, or is read from the child where `is_read`."""
        how: dict[str, Any] = {"stdout": self.log, "stderr": self.log}
        if is_read:
            how = {"stdout": subprocess.PIPE, "stderr": subprocess.STDOUT, "text": True, "errors": "replace"}
        with self.lock:
            if self.closed:
                raise Interrupted(signal.SIGTERM)
            child = subprocess.Popen(words, stdin=subprocess.DEVNULL, cwd=cwd, env=env, start_new_session=True, **how)
            self.running.add(child)
        return child

    def status_of(self, words: list[str], cwd: str | None = None, env: Mapping[str, str] | None = None) -> int:
        """Runs a command to its end."""
        return self.wait(self.start(words, cwd, env))

    def wait(self, child: subprocess.Popen[str]) -> int:
        status = child.wait()
        self.running.discard(child)
        return status

    def end(self) -> None:
        """Ends what still runs, and all that it started."""
        with self.lock:
            self.closed = True
            left = list(self.running)
        for child in left:
            for number in (signal.SIGTERM, signal.SIGKILL):
                try:
                    os.killpg(child.pid, number)
                    child.wait(2)
                except (ProcessLookupError, PermissionError, subprocess.TimeoutExpired):
                    continue


def say_end_of(path: str) -> None:
    """The last lines of a log."""
    try:
        with open(path, errors="replace") as log:
            lines = [it.rstrip("\n") for it in log]
    except OSError:
        return
    for line in lines[-SHOWN:]:
        say(f"| {line}")
