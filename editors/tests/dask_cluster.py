"""A scheduler of Dask and its workers, as processes on this machine."""
from __future__ import annotations

import json
import os
import shutil
import signal
import subprocess
import sys
import time
from contextlib import contextmanager
from functools import lru_cache
from pathlib import Path
from typing import Callable, Iterator

# A process is waited for so many seconds: many others may start at once.
LONGEST_START = 120
# Two workers that end make a task fail.
SETTINGS = {"DASK_DISTRIBUTED__SCHEDULER__ALLOWED_FAILURES": "1"}


@lru_cache(maxsize=None)
def python_with_dask() -> str | None:
    """A Python that has Dask: this one, else the system's."""
    for it in (sys.executable, "/usr/bin/python3"):
        if shutil.which(it) and not subprocess.run([it, "-c", "import distributed"], capture_output=True).returncode:
            return it
    return None


class Dask:
    """A scheduler that runs, with its workers; their logs and files are in a folder."""

    def __init__(self, python: str, where: Path) -> None:
        self._python, self._where = python, where
        self._started: list[subprocess.Popen[bytes]] = []

    def start(self) -> None:
        """Starts the scheduler."""
        file = self._where / "scheduler.json"
        self._start("scheduler", {}, "--host", "127.0.0.1", "--port", "0", "--scheduler-file", str(file))
        until(lambda: file.exists() and bool(file.read_text()), "a scheduler")
        self.address = str(json.loads(file.read_text())["address"])

    def worker(self, name: str, *words: str, **environment: str) -> subprocess.Popen[bytes]:
        """Starts a worker of one thread, and waits until the scheduler has it."""
        folder = self._where / name
        options = ["--host", "127.0.0.1", "--nthreads", "1", "--local-directory", str(folder), *words]
        worker = self._start("worker", environment, self.address, *options)
        until(lambda: b"Registered to" in (self._where / "worker.log").read_bytes(), "a worker")
        (self._where / "worker.log").rename(self._where / f"{name}.log")
        return worker

    def _start(self, what: str, environment: dict[str, str], *words: str) -> subprocess.Popen[bytes]:
        """Starts a process."""
        with open(self._where / f"{what}.log", "wb") as log:
            process = subprocess.Popen(
                [self._python, "-m", f"distributed.cli.dask_{what}", "--no-dashboard", *words],
                env={**os.environ, **SETTINGS, **environment},
                stdin=subprocess.DEVNULL,
                stdout=log,
                stderr=log,
                start_new_session=True,
            )
        self._started.append(process)
        return process

    def end(self) -> None:
        """Ends all processes."""
        for it in self._started:
            if it.poll() is None:
                os.killpg(it.pid, signal.SIGKILL)
            it.wait()


def until(holds: Callable[[], bool], what: str) -> None:
    """Waits until something holds."""
    last = time.monotonic() + LONGEST_START
    while not holds():
        assert time.monotonic() < last, f"{what} did not come"
        time.sleep(0.1)


@contextmanager
def dask(where: Path) -> Iterator[Dask]:
    """A scheduler that runs."""
    python = python_with_dask()
    assert python
    it = Dask(python, where)
    try:
        it.start()
        yield it
    finally:
        it.end()
