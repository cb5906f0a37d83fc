"""The process that a worker of a cluster starts: it checks some texts, one after the other, and writes what it found."""
from __future__ import annotations

import asyncio
import pickle
import sys
from io import BytesIO
from typing import BinaryIO

from daig_editor.checking.analysing import Text, analysed
from daig_editor.checking.analysis import Wanted
from daig_editor.checking.sources import Source
from daig_editor.checking.work import in_order
from daig_editor.language.places import SourceText
from daig_editor.language.records import dataclass, replace
from daig_editor.reports.finding import CheckedFile
from daig_editor.server.choices import found_program
from daig_editor.server.process import DaigProcess
from daig_editor.server.serving import NotStarted, Refused

# What it writes first, when it has a program to ask.
READY = "ready"
SMALLEST = b"proc main() {\n}\n"
# Texts are not sent back: who asked has them.
NO_TEXT = SourceText.of(b"", True)


@dataclass(frozen=True)
class Request:
    """Texts, each with what is wanted of it, and for how many seconds each may be checked."""

    texts: list[tuple[Text, Wanted]]
    seconds: float


def main() -> None:
    """Reads a request from standard input, and writes the answer to standard output."""
    request = pickle.load(sys.stdin.buffer)
    try:
        asyncio.run(_answer(request, sys.stdout.buffer))
    except NotStarted as why:
        sys.exit(str(why))


def checked_files(answer: bytes) -> list[CheckedFile] | None:
    """The files that an answer tells of, which may be cut off; None where its process had no program to ask."""
    stream, found = BytesIO(answer), []
    try:
        if pickle.load(stream) != READY:
            return None
    except (EOFError, pickle.UnpicklingError):
        return None
    while stream.tell() < len(answer):
        try:
            found.append(pickle.load(stream))
        except (EOFError, pickle.UnpicklingError):
            break
    return found


async def _answer(request: Request, output: BinaryIO) -> None:
    """Checks all texts, and writes each as it is checked; raises `NotStarted` where there is no program to ask."""
    program = ""
    for _, wanted in request.texts[:1]:
        program = await _program(wanted)
    _write(READY, output)
    texts = {text.name: (text, _asking(program, wanted)) for text, wanted in request.texts}

    async def check(source: Source) -> CheckedFile:
        return await analysed(*texts[source.name])

    sources = [Source(it, it) for it in texts]
    async for checked in in_order(sources, 1, check, lambda _: None, request.seconds):
        checked.source = NO_TEXT
        _write(checked, output)


async def _program(wanted: Wanted) -> str:
    """The program to ask, which answers; raises `NotStarted`."""
    program = wanted.settings.daig or found_program()
    if program is None:
        raise NotStarted("there is no program daig on the PATH")
    try:
        server = await DaigProcess.start(_asking(program, wanted).settings, SMALLEST)
    except Refused as why:
        raise NotStarted(f"{program} refuses the least program: {why}") from None
    await server.stop()
    return program


def _asking(program: str, wanted: Wanted) -> Wanted:
    """What is wanted, of a program."""
    return replace(wanted, settings=replace(wanted.settings, daig=program))


def _write(it: object, output: BinaryIO) -> None:
    """Writes a part of the answer."""
    pickle.dump(it, output)
    output.flush()
