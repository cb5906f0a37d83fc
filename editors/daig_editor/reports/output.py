"""Where a report is written. A file is there as a whole or not at all."""
from __future__ import annotations

import contextlib
import os
import stat
import sys
from typing import BinaryIO, Protocol


class Output(Protocol):
    """Where a report is written. Each call raises `OSError` where it fails."""

    def write(self, text: str) -> None:
        """Writes a part."""

    def keep(self) -> None:
        """All is written."""

    def drop(self) -> None:
        """Something failed: what was written is not to stay, where that can be."""


def output_to(path: str | None) -> Output:
    """Standard output, a new file in the place of another, or a device or pipe that is there."""
    if path is None:
        return StreamOutput(sys.stdout.buffer)
    if os.path.exists(path) and not stat.S_ISREG(os.stat(path).st_mode):
        return StreamOutput(open(path, "wb"))
    return FileOutput(os.path.realpath(path))


def encoded(text: str) -> bytes:
    """Text as it is written: file names come out as the bytes that they are."""
    return text.encode("utf-8", "surrogateescape")


class StreamOutput:
    """A stream, which is written as the parts come."""

    def __init__(self, stream: BinaryIO) -> None:
        self._stream = stream

    def write(self, text: str) -> None:
        """Writes a part at once."""
        if text:
            self._stream.write(encoded(text))
            self._stream.flush()

    def keep(self) -> None:
        """Nothing is left to do."""
        self._stream.flush()

    def drop(self) -> None:
        """What is written stays."""


class FileOutput:
    """A file, which is written under another name beside its place and renamed when it is whole."""

    def __init__(self, path: str) -> None:
        self._path = path
        folder, name = os.path.split(path)
        import tempfile

        handle, self._other = tempfile.mkstemp(prefix=f".{name[:100]}.", suffix=".new", dir=folder or ".")
        self._file = os.fdopen(handle, "wb")

    def write(self, text: str) -> None:
        """Writes a part."""
        self._file.write(encoded(text))

    def keep(self) -> None:
        """Puts the file in its place."""
        self._file.flush()
        os.fsync(self._file.fileno())
        self._file.close()
        os.chmod(self._other, _mode_for(self._path))
        os.replace(self._other, self._path)

    def drop(self) -> None:
        """Leaves the old file, if there is one."""
        with contextlib.suppress(OSError):
            self._file.close()
        with contextlib.suppress(OSError):
            os.unlink(self._other)


def _mode_for(path: str) -> int:
    """The mode of the file that is replaced, else that of a new one."""
    if os.path.exists(path):
        return stat.S_IMODE(os.stat(path).st_mode)
    mask = os.umask(0)
    os.umask(mask)
    return 0o666 & ~mask
