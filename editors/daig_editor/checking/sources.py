"""The files that words on the command line name, and their bytes."""
from __future__ import annotations

import os
import stat
import sys
from typing import Iterator, NamedTuple

from daig_editor.checking.configuration import Configurations
from daig_editor.checking.patterns import Patterns
from daig_editor.language.records import dataclass, field
from daig_editor.language.tokens import GREATEST_SOURCE
from daig_editor.reports.project import STANDARD_INPUT, STANDARD_INPUT_NAME


class Source(NamedTuple):
    """A file to be checked: its name, its path below the folder that was named, and why it cannot be checked, if so."""

    name: str
    below: str
    trouble: str = ""


@dataclass
class Wanted:
    """Which files are wanted: by their folders' configurations, without the excluded ones.

    `force`: files that are named are left out too where they are excluded. `left_out` counts them.
    """

    configurations: Configurations = field(default_factory=Configurations)
    exclude: Patterns = Patterns("", ())
    force: bool = False
    left_out: int = 0

    def excludes(self, path: str, folder: str) -> bool:
        """Whether a path, which is in a folder, is excluded."""
        return self.exclude.match(path) or self.configurations.of(folder).exclude.match(path)

    def includes(self, path: str, folder: str) -> bool:
        """Whether a file of a folder is one of those that are checked."""
        return self.configurations.of(folder).include.match(path)


def sources_of(words: list[str], wanted: Wanted | None = None) -> list[Source]:
    """The files of all words in their order, each once, by whatever names. A folder has all files below it, sorted."""
    found: dict[object, Source] = {}
    for word in words:
        for source in _of_word(word, wanted or Wanted()):
            found.setdefault(_identity(source), source)
    return list(found.values())


def _identity(source: Source) -> object:
    """What is equal for two names of a file."""
    if source.name != STANDARD_INPUT_NAME:
        try:
            it = os.stat(source.name)
            return it.st_dev, it.st_ino
        except OSError:
            pass
    return source.name


def _of_word(word: str, wanted: Wanted) -> Iterator[Source]:
    """The files of one word."""
    if word == STANDARD_INPUT:
        yield Source(STANDARD_INPUT_NAME, STANDARD_INPUT_NAME)
        return
    name = os.path.join(".", word) if word == STANDARD_INPUT_NAME else word
    if os.path.isdir(name):
        below = sorted(_Walk(name, wanted).sources())
        yield from below or [Source(name, name, "there is no file to check below this folder")]
    elif wanted.force and wanted.excludes(os.path.abspath(name), os.path.dirname(name) or "."):
        wanted.left_out += 1
    else:
        yield Source(name, os.path.basename(name))


class _Walk:
    """A walk through all folders below one. Folders that links lead to come last, and each folder is entered once."""

    def __init__(self, top: str, wanted: Wanted) -> None:
        self._top = top
        self._wanted = wanted
        self._seen: set[tuple[int, int]] = set()
        self._open = [top]
        self._links: list[str] = []

    def sources(self) -> Iterator[Source]:
        """The files, and the folders that cannot be read."""
        while self._open or self._links:
            if not self._open:
                self._links.sort(reverse=True)
                self._open.append(self._links.pop())
            folder = self._open.pop()
            try:
                yield from self._of_folder(folder)
            except OSError as error:
                yield Source(folder, folder, str(error.strerror or error))

    def _of_folder(self, folder: str) -> Iterator[Source]:
        """The files of a folder; those in it are left for later."""
        it = os.stat(folder)
        if (it.st_dev, it.st_ino) in self._seen:
            return
        self._seen.add((it.st_dev, it.st_ino))
        with os.scandir(folder) as entries:
            found = sorted(entries, key=lambda entry: entry.name)
        for entry in found:
            if entry.name.startswith("."):
                continue
            whole = os.path.abspath(entry.path)
            if entry.is_dir():
                if not self._wanted.excludes(whole, folder):
                    (self._links if entry.is_symlink() else self._open).append(entry.path)
            elif self._wanted.includes(whole, folder) and not self._wanted.excludes(whole, folder):
                yield Source(entry.path, os.path.relpath(entry.path, self._top))


class NoFile(OSError):
    """What is no file, and is not read, since it may have no end or never begin."""


def bytes_of(name: str) -> bytes:
    """The first bytes of a file, one more than a program may have; raises `OSError`. It never waits for another one."""
    handle = os.open(name, os.O_RDONLY | os.O_NONBLOCK | os.O_NOCTTY)
    with open(handle, "rb") as file:
        mode = os.fstat(handle).st_mode
        if stat.S_ISDIR(mode):
            raise NoFile("it is a folder")
        if not stat.S_ISREG(mode):
            raise NoFile("it is no file but a device or a pipe; - is for standard input")
        return file.read(GREATEST_SOURCE + 1)


def standard_input() -> bytes | OSError:
    """The first bytes of standard input, one more than a program may have, or why it cannot be read."""
    if sys.stdin is None:
        return OSError("standard input is closed")
    try:
        return sys.stdin.buffer.read(GREATEST_SOURCE + 1)
    except OSError as error:
        return error
