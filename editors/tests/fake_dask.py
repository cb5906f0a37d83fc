"""Stands in for Dask: workers that are threads of this process, of which some lack the program or end in their tasks."""
from __future__ import annotations

import asyncio
import pickle
import sys
import threading
from contextlib import contextmanager
from dataclasses import dataclass, field
from types import ModuleType
from typing import Any, Callable, Coroutine, Iterator
from unittest.mock import patch

Answer = tuple[str, bytes, str]


class KilledWorker(Exception):
    """The workers of a task ended, one after the other."""


class FakeFuture:
    """A task that was submitted."""

    def __init__(self, work: asyncio.Task[Answer]) -> None:
        self._work = work

    async def result(self) -> Answer:
        """What it answers."""
        return await self._work


@dataclass
class FakeDask:
    """What a scheduler is told and does. `useless` workers lack the program; `ends` says by a file's text whether a worker that
    checks it ends; so many tasks are `lost` at first, and with `fault` each ends by that. With `silent` it answers nothing.
    `tasks` has the names of each task's files, and its worker."""

    folder: str
    workers: tuple[str, ...] = ("tcp://one", "tcp://two")
    useless: tuple[str, ...] = ()
    ends: Callable[[bytes], bool] = lambda _: False
    lost: int = 0
    fault: Exception | None = None
    silent: bool = False
    tasks: list[tuple[list[str], str]] = field(default_factory=list)
    closed: bool = False

    def __await__(self) -> Iterator[Any]:
        yield from asyncio.sleep(0).__await__()
        return self

    def nthreads(self) -> Coroutine[Any, Any, dict[str, int]]:
        """The workers. As Dask's own client does, it fails at once where it is not connected."""
        if self.silent:
            raise AttributeError("it has no scheduler")
        return self._threads()

    async def _threads(self) -> dict[str, int]:
        """The workers, each with a thread."""
        return {it: 1 for it in self.workers}

    async def close(self, timeout: float) -> None:
        """It is used no more."""
        self.closed = timeout > 0

    def submit(self, function: Any, *words: Any, key: str, pure: bool, workers: list[str] | None) -> FakeFuture:
        """Submits a task, which one of the workers runs in its turn."""
        may = [it for it in self.workers if workers is None or it in workers]
        worker = may[len(self.tasks) % len(may)]
        texts = [text for text, _ in pickle.loads(words[1]["request"]).texts]
        self.tasks.append(([it.name for it in texts], worker))
        is_lost = len(self.tasks) <= self.lost
        return FakeFuture(asyncio.ensure_future(self._run(worker, [it.data for it in texts], function, words, is_lost)))

    async def _run(self, worker: str, texts: list[bytes], function: Any, words: Any, is_lost: bool) -> Answer:
        """Runs a task on a worker."""
        if is_lost:
            raise asyncio.CancelledError
        if self.fault:
            raise self.fault
        if worker in self.useless:
            return worker, b"", "there is no program daig on the PATH"
        if any(self.ends(it) for it in texts):
            raise KilledWorker("they ended")
        return await asyncio.to_thread(self._on, worker, function, words)

    def _on(self, worker: str, function: Any, words: Any) -> Answer:
        """Evaluates a task in a thread of a worker."""
        _here.address, _here.local_directory = worker, self.folder
        answer: Answer = function(*words)
        return answer


_here = threading.local()


@contextmanager
def dask_is(dask: FakeDask | None) -> Iterator[None]:
    """The time in which Dask is this one, or is not there."""
    module = ModuleType("distributed")
    vars(module).update(get_worker=lambda: _here, Client=lambda _address, **_more: dask)
    with patch.dict(sys.modules, {"distributed": module if dask else None}):
        yield
