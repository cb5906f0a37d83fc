"""What a `daig serve` is started with, why it is not or has ended, and what is the same however it is asked."""
from __future__ import annotations

import json
import os
import resource
import signal
from contextlib import contextmanager, suppress
from typing import Awaitable, Callable, Iterator, Protocol

from daig_editor.language.records import dataclass
from daig_editor.language.tokens import GREATEST_SOURCE

Reply = dict[str, object]
LONGEST_REPLY = 64 * 2**20
# A server that closed its output ends within so many seconds, or is ended.
LONGEST_SILENCE = 5.0
MEBIBYTE = 2**20
MEMORY_STATUS = 6
# How a server refuses a request that it does not know.
UNKNOWN_REQUEST = 3
STATUS_WORDS = {
    2: "its options are refused",
    4: "its input failed",
    5: "its output failed",
    MEMORY_STATUS: "it had too little memory",
    7: "the file could not be read",
    8: "its script grew too long",
    9: f"the text has more than {GREATEST_SOURCE:,} bytes",
}


@dataclass(frozen=True)
class Settings:
    """What `daig serve` is started with. `memory` is how many MiB of it may take, 0 for any number; `patience` after how
    many seconds without a reply it is ended, 0 for never."""

    daig: str
    domain: str = "octagon+listseg"
    widening: str = "thresholds"
    delay: int = 0
    budget: int = 100
    memory: int = 2048
    patience: int = 0

    def words(self, file: str) -> list[str]:
        """The command for a file."""
        options = ["--domain", self.domain, "--widening", self.widening]
        options += ["--delay", str(self.delay), "--budget", str(self.budget)]
        return [self.daig, "serve", *options, file]


class Server(Protocol):
    """A running server."""

    async def ask(self, **request: object) -> Reply:
        """The reply to a request; raises `Gone`."""

    async def stop(self) -> None:
        """Ends it."""


Start = Callable[[Settings, bytes], Awaitable[Server]]


class NotStarted(Exception):
    """Why no server runs: it is not there, or it ended of itself."""


class Refused(Exception):
    """The server refuses the text; `reply` is its line."""

    def __init__(self, reply: Reply) -> None:
        super().__init__(str(reply))
        self.reply = reply


class Gone(Exception):
    """The server ended while it ran, or says what no server says. `of_memory`: it had too little memory."""

    def __init__(self, words: str, of_memory: bool = False) -> None:
        super().__init__(words)
        self.of_memory = of_memory


@contextmanager
def text_file(text: bytes) -> Iterator[str]:
    """A file with a text, from which a server loads it; raises `NotStarted`."""
    try:
        handle, path = _new_file()
    except OSError as error:
        raise NotStarted(f"no file for the text can be made: {error.strerror}") from None
    try:
        try:
            with os.fdopen(handle, "wb") as file:
                file.write(text)
        except OSError as error:
            raise NotStarted(f"{path} cannot be written: {error.strerror}") from None
        yield path
    finally:
        os.unlink(path)


def _new_file() -> tuple[int, str]:
    """A new file, open, which nobody else can open, and its path."""
    folder = os.environ.get("TMPDIR") or "/tmp"
    path = os.path.join(folder, f"daig-{os.urandom(8).hex()}.imp")
    with suppress(OSError):
        return os.open(path, os.O_WRONLY | os.O_CREAT | os.O_EXCL | os.O_CLOEXEC, 0o600), path
    import tempfile  # finds other folders, and takes long to load

    return tempfile.mkstemp(suffix=".imp")


def bound_memory(pid: int, settings: Settings) -> None:
    """Lets a server take so much memory and no more, where the system can be told of a running program.

    A source is bounded, and so is what loading it takes; the program may be a script that first builds the server.
    """
    limit = settings.memory * MEBIBYTE
    if limit and hasattr(resource, "prlimit"):
        with suppress(OSError, ValueError):  # it ended, or has a lower limit
            resource.prlimit(pid, resource.RLIMIT_AS, (limit, limit))


def greeted(reply: Reply, settings: Settings) -> None:
    """Looks at the first reply, to the request `cost`; raises `Refused` or `NotStarted`."""
    if "refused" in reply and "name" in reply:
        raise Refused(reply)
    if "cost" not in reply:
        raise NotStarted(f"{settings.daig} is no `daig`: it says {str(reply)[:80]}")


def reply_of(line: bytes) -> Reply | None:
    """The reply of a line; None where it is none."""
    try:
        reply = json.loads(line)
    except (ValueError, RecursionError):
        return None
    return reply if isinstance(reply, dict) else None


def gone_with(status: int) -> Gone:
    """What a server's status says."""
    if status < 0:
        return Gone(f"it was ended by {_signal_name(-status)}")
    return Gone(STATUS_WORDS.get(status, f"it ended with status {status}"), status == MEMORY_STATUS)


def _signal_name(number: int) -> str:
    """A signal's name."""
    try:
        return signal.Signals(number).name
    except ValueError:
        return f"signal {number}"
