"""The old texts that files are compared with: a file, the files of a folder, or those of a revision of git."""
from __future__ import annotations

import asyncio
import os
from typing import NamedTuple, Protocol

from daig_editor.checking.sources import Source, bytes_of
from daig_editor.language.tokens import GREATEST_SOURCE
from daig_editor.reports.project import STANDARD_INPUT_NAME
from daig_editor.server.child import started


class OldText(NamedTuple):
    """A file before the change, by a name for people."""

    name: str
    data: bytes


class NoOldText(Exception):
    """There is no such file before the change; in words where it should be."""


class NotComparable(Exception):
    """Why a file cannot be compared."""


class Against(Protocol):
    """Where the old texts are."""

    async def old(self, source: Source) -> OldText:
        """The old text of a file; raises `NoOldText`, `NotComparable`, or `OSError`."""


class OldFile(NamedTuple):
    """A file that all are compared with."""

    name: str

    async def old(self, source: Source) -> OldText:
        """The file."""
        return OldText(self.name, bytes_of(self.name))


class OldFolder(NamedTuple):
    """A folder with files of the same names."""

    name: str

    async def old(self, source: Source) -> OldText:
        """The file of the same path below the folder."""
        path = os.path.join(self.name, source.below)
        try:
            return OldText(path, bytes_of(path))
        except FileNotFoundError:
            raise NoOldText(path) from None


class OldRevision:
    """A revision of git, such as HEAD or main, in the repository of each file."""

    def __init__(self, name: str) -> None:
        self._name = name
        self._commits: dict[str, asyncio.Task[str]] = {}

    async def old(self, source: Source) -> OldText:
        """The file of the same name at the revision."""
        if source.name == STANDARD_INPUT_NAME:
            raise NotComparable("standard input has no revisions; name a file by --against")
        folder, name = os.path.split(os.path.realpath(source.name))
        if folder not in self._commits:
            self._commits[folder] = asyncio.create_task(self._commit(folder))
        commit = await asyncio.shield(self._commits[folder])
        status, data = await _git(folder, "cat-file", "blob", f"{commit}:./{name}")
        told = f"{self._name}:{source.name}"
        if status != 0:
            raise NoOldText(told)
        return OldText(told, data)

    async def _commit(self, folder: str) -> str:
        """The commit, in the repository of a folder."""
        commit = f"{self._name}^{{commit}}"
        status, line = await _git(folder, "rev-parse", "--verify", "--quiet", "--end-of-options", commit)
        if status != 0:
            raise NotComparable(f"--against {self._name}: there is no such file or folder, and no such revision of git")
        return line.decode().strip().split()[-1]


def against(name: str) -> Against:
    """What a word of the command line names."""
    if os.path.isdir(name):
        return OldFolder(name)
    if os.path.lexists(name):
        return OldFile(name)
    return OldRevision(name)


async def _git(folder: str, *words: str) -> tuple[int, bytes]:
    """The status of git in a folder, and the first bytes that it writes."""
    try:
        process = await started(["git", "-C", folder, *words], asyncio.subprocess.DEVNULL, asyncio.subprocess.PIPE)
    except OSError as error:
        raise NotComparable(f"git cannot be asked: {error.strerror}") from None
    try:
        assert process.stdout
        data = await _first_bytes(process.stdout)
        return (await process.wait() if len(data) <= GREATEST_SOURCE else 0), data
    finally:
        if process.returncode is None:
            await process.stop()


async def _first_bytes(stream: asyncio.StreamReader) -> bytes:
    """All of a stream, or one byte more than a program may have."""
    try:
        return await stream.readexactly(GREATEST_SOURCE + 1)
    except asyncio.IncompleteReadError as ended:
        return ended.partial
