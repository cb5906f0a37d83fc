"""Checks files by the workers of a Dask scheduler, which need the program and nothing else of this machine.

Texts go out, some in a task, with the modules that check them, and findings come back. Where a worker is lost, Dask runs
its tasks elsewhere. What fails in a task of several files is tried again alone, so that a file that ends workers takes no
other with it. No file waits for ever: each is checked, or told as not checked.
"""
from __future__ import annotations

import asyncio
import hashlib
import pickle
import sys
import time
import uuid
import zipfile
from collections import deque
from contextlib import asynccontextmanager
from importlib import import_module
from io import BytesIO
from pathlib import Path
from typing import Any, AsyncIterator, Callable, Coroutine, Mapping, Protocol

from daig_editor.checking.analysing import Text
from daig_editor.checking.analysis import Wanted
from daig_editor.checking.cluster_process import Request, checked_files
from daig_editor.language.places import SourceText
from daig_editor.language.records import dataclass
from daig_editor.reports.finding import CheckedFile, troubled
from daig_editor.server.ending import cancelled

# So many files are on their way at once; a task has so many at most, and so many bytes where it has several.
MOST_FILES, MOST_IN_TASK, MOST_BYTES = 1_000, 16, 65_536
# Each thread of the workers has about so many tasks, done and to be done, so that all end at about the same time.
TASKS_OF_THREAD = 4
# A file is tried alone so many times, where its task fails by anything but the end of its workers.
MOST_TRIES = 3
# The workers are looked after each time that so many seconds have gone. All is given up that is not checked where there
# is none for so many seconds, or no answer of the scheduler for so many. A task may take so many longer than its files.
LOOK_EVERY, LONGEST_WITHOUT, LONGEST_SILENCE, LATE = 1.0, 60.0, 300.0, 60.0
# A connection is waited for at most so many seconds, and so is the end of the work.
LONGEST_START, LONGEST_END = 10.0, 5.0
LONGEST_WORDS = 200

PACKAGE = Path(__file__).resolve().parents[1]
# The folders of the package that a check needs.
PARTS = ("checking", "language", "reports", "server")
MAIN = """import sys
sys.modules.setdefault("ssl", None)
from daig_editor.checking.cluster_process import main
main()
"""
# What a worker evaluates, in a scope with the source of `cluster_worker` and the words of its function `answer`.
TASK = "exec(source) or answer(package, digest, request, seconds)"
KILLED = "KilledWorker"

# The workers' addresses, each with its threads.
Threads = Mapping[str, int]
# A worker's address, what its process wrote, and why that is not all, if so.
Answer = tuple[str, bytes, str]


class NoCluster(Exception):
    """Why there is no scheduler to ask."""


class Lost(Exception):
    """A task that ends without an answer."""


class Future(Protocol):
    """A task that was submitted."""

    def result(self) -> Coroutine[Any, Any, Answer]:
        """What it answers; raises what ended it."""


class Client(Protocol):
    """What is used of Dask's client."""

    def submit(self, function: object, *words: object, key: str, pure: bool, workers: list[str] | None) -> Future:
        """Submits a task, which only these workers may run, if some are named."""

    def nthreads(self) -> Coroutine[Any, Any, Threads]:
        """The workers that there are."""


@asynccontextmanager
async def connected(address: str, seconds: float, tell: Callable[[str], None]) -> AsyncIterator[Cluster]:
    """The cluster of a scheduler, which checks each file for so many seconds at most; raises `NoCluster`.

    `tell` is told, in words, of workers that cannot be used.
    """
    if sys.modules.get("ssl", sys) is None:  # it is marked as missing, since daig-check alone has no use for it
        del sys.modules["ssl"]
    try:
        dask = import_module("distributed")
    except ImportError as error:
        raise NoCluster(f"Dask is wanted, which is Debian's python3-distributed: {error}") from None
    try:
        client = await dask.Client(address, asynchronous=True, timeout=LONGEST_START, set_as_default=False)
    except (OSError, ValueError) as error:
        raise NoCluster(str(error)) from None
    try:
        async with Cluster(client, seconds, tell).working() as cluster:
            yield cluster
    finally:
        await asyncio.wait([asyncio.ensure_future(client.close(timeout=LONGEST_END))], timeout=LONGEST_END)


def packed() -> bytes:
    """The modules that check texts, in an archive that Python runs, the same for the same modules."""
    archive = BytesIO()
    with zipfile.ZipFile(archive, "w", zipfile.ZIP_DEFLATED) as files:
        files.writestr(zipfile.ZipInfo("__main__.py"), MAIN)
        for path in sorted([PACKAGE / "__init__.py", *(it for part in PARTS for it in (PACKAGE / part).glob("*.py"))]):
            name = path.relative_to(PACKAGE.parent).as_posix()
            files.writestr(zipfile.ZipInfo(name), path.read_bytes(), zipfile.ZIP_DEFLATED)
    return archive.getvalue()


@dataclass(eq=False)
class _Job:
    """A file that is to be checked, and how often that was tried alone."""

    text: Text
    wanted: Wanted
    checked: asyncio.Future[CheckedFile]
    is_alone: bool = False
    tries: int = 0

    def tell(self, checked: CheckedFile) -> None:
        """It is checked."""
        checked.source = SourceText.of(self.text.data, True)
        if not self.checked.done():
            self.checked.set_result(checked)

    def give_up(self, why: str) -> None:
        """It is not checked."""
        self.tell(troubled(self.text.name, why))


@dataclass(eq=False)
class _Task:
    """A task that runs: its jobs, the workers that may run it, or all, and the wait for its answer."""

    jobs: list[_Job]
    workers: list[str] | None
    answer: asyncio.Task[Answer]


class Cluster:
    """The workers of a scheduler, and the files that they check."""

    def __init__(self, client: Client, seconds: float, tell: Callable[[str], None]) -> None:
        self._client = client
        self._seconds = seconds
        self._tell = tell
        package = packed()
        self._scope = {
            "source": (PACKAGE / "checking/cluster_worker.py").read_text(),
            "package": package,
            "digest": hashlib.sha256(package).hexdigest()[:16],
        }
        self._waiting: deque[_Job] = deque()
        self._tasks: set[_Task] = set()
        self._runs: set[asyncio.Task[None]] = set()
        self._threads: Threads = {}
        # The workers that cannot be used, and why.
        self._useless: dict[str, str] = {}
        self._last_use = self._last_answer = time.monotonic()

    async def analyse(self, text: Text, wanted: Wanted) -> CheckedFile:
        """Checks a file, as `analysed` does."""
        job = _Job(text, wanted, asyncio.get_running_loop().create_future())
        self._enqueue(job)
        return await job.checked

    @asynccontextmanager
    async def working(self) -> AsyncIterator[Cluster]:
        """The time in which files are checked; at its end what still runs is given up."""
        await self._look()
        watch = asyncio.create_task(self._watch())
        try:
            yield self
        finally:
            await cancelled([watch, *self._runs], LONGEST_END)

    # Tasks.

    def _enqueue(self, job: _Job) -> None:
        """A file waits. What comes at once is sent at once, some in a task."""
        if not self._waiting:
            asyncio.get_running_loop().call_soon(self._send)
        self._waiting.append(job)

    def _send(self) -> None:
        """Sends all that waits, if there is a worker for it."""
        threads = sum(self._usable().values())
        if not threads:
            return
        files = len(self._waiting) + sum(len(it.jobs) for it in self._tasks)
        most = min(1 + files // (TASKS_OF_THREAD * threads), MOST_IN_TASK)
        while self._waiting:
            run = asyncio.create_task(self._run(self._next_jobs(most)))
            self._runs.add(run)
            run.add_done_callback(self._runs.discard)

    def _next_jobs(self, most: int) -> list[_Job]:
        """The next files, for a task."""
        jobs = [self._waiting.popleft()]
        size = len(jobs[0].text.data)
        while self._waiting and len(jobs) < most and not jobs[0].is_alone and not self._waiting[0].is_alone:
            size += len(self._waiting[0].text.data)
            if size > MOST_BYTES:
                break
            jobs.append(self._waiting.popleft())
        return jobs

    async def _run(self, jobs: list[_Job]) -> None:
        """Has files checked by a task, and those that it did not check by others."""
        try:
            address, answer, why = await self._answer(jobs)
            found = checked_files(answer)
        except Exception as error:  # whatever it is, nobody waits for ever
            if type(error).__name__ == KILLED and len(jobs) == 1:
                jobs[0].give_up("each worker that began to check it ended, and it may be why")
            else:
                self._try_again(jobs, f"its task failed: {_words(error)}")
            return
        if found is None:
            self._use_no_more(address, why)
            for job in jobs:
                self._enqueue(job)
            return
        checked = {it.name: it for it in found}
        for job in jobs:
            if job.text.name in checked:
                job.tell(checked[job.text.name])
        left = [it for it in jobs if not it.checked.done()]
        self._try_again(left, f"the process that checked it on the worker {address} failed: {why}")

    async def _answer(self, jobs: list[_Job]) -> Answer:
        """What a task answers; raises what ended it."""
        request = pickle.dumps(Request([(it.text, it.wanted) for it in jobs], self._seconds))
        scope = {**self._scope, "request": request, "seconds": len(jobs) * self._seconds + LATE}
        workers = sorted(self._usable()) if self._useless.keys() & self._threads.keys() else None
        key = f"daig-check-{uuid.uuid4().hex}"
        future = self._client.submit(eval, TASK, scope, key=key, pure=False, workers=workers)
        task = _Task(jobs, workers, asyncio.create_task(future.result()))
        self._tasks.add(task)
        try:
            await asyncio.wait([task.answer])
            if task.answer.cancelled():
                raise Lost("it was lost")
            return task.answer.result()
        finally:
            task.answer.cancel()
            self._tasks.discard(task)

    def _try_again(self, jobs: list[_Job], why: str) -> None:
        """Has files checked again, each alone, but none for ever."""
        for job in jobs:
            job.tries += job.is_alone
            job.is_alone = True
            if job.tries < MOST_TRIES:
                self._enqueue(job)
            else:
                job.give_up(why)

    # Workers.

    def _usable(self) -> Threads:
        """The workers that can be used, as far as is known."""
        return {it: threads for it, threads in self._threads.items() if it not in self._useless}

    def _use_no_more(self, address: str, why: str) -> None:
        """A worker cannot check."""
        if address not in self._useless:
            self._useless[address] = why
            self._tell(f"the worker {address} checks nothing, so its files go to others: {why}")

    async def _watch(self) -> None:
        """Looks after the workers, again and again."""
        while True:
            await asyncio.sleep(LOOK_EVERY)
            await self._look()

    async def _look(self) -> None:
        """Looks after the workers: which there are, and whether each task has one that may run it."""
        now, threads = time.monotonic(), await self._asked()
        if threads is None:
            if now - self._last_answer >= LONGEST_SILENCE:
                self._give_up(f"the scheduler has not answered for {LONGEST_SILENCE:g} seconds")
            return
        self._threads, self._last_answer = threads, now
        if self._usable():
            self._last_use = now
            self._send()
        elif threads:
            address = next(iter(threads))
            self._give_up(f"no worker can check it; {address}, for one: {self._useless[address]}")
        elif now - self._last_use >= LONGEST_WITHOUT:
            self._give_up(f"the scheduler has had no worker for {LONGEST_WITHOUT:g} seconds")
        for task in self._tasks:
            if task.workers is not None and not threads.keys() & task.workers:
                task.answer.cancel()

    async def _asked(self) -> Threads | None:
        """The workers that the scheduler has; None where it does not answer."""
        try:
            asked = asyncio.create_task(self._client.nthreads())
            try:
                await asyncio.wait([asked], timeout=LONGEST_START)
                return asked.result() if asked.done() and not asked.cancelled() else None
            finally:
                asked.cancel()
        except Exception:  # whatever it is, the next look may go better
            return None

    def _give_up(self, why: str) -> None:
        """No file that waits or is on its way is checked."""
        jobs = [*self._waiting, *(job for task in self._tasks for job in task.jobs)]
        self._waiting.clear()
        for job in jobs:
            job.give_up(why)
        for run in self._runs:
            run.cancel()


def _words(error: Exception) -> str:
    """An error in a short line: Dask's may hold all that a task is made of."""
    words = str(error) if isinstance(error, Lost) else f"{type(error).__name__}: {error}"
    return words.split("\n")[0][:LONGEST_WORDS]
