"""Reads the text of an `.imp` program into a tree.

A text is cut into pieces, and a piece is read once for each spelling and kept. Outermost statements before a
change and after it are taken over from the program of the last text, so that a text of which little has changed is
read again quickly. Where this reader and the server differ, the server is right.
"""
from __future__ import annotations

import re
from bisect import bisect_left
from typing import Iterator

from daig_editor.language.building import ProgramBuilder, Unread
from daig_editor.language.pieces import Piece, PieceReader
from daig_editor.language.records import dataclass
from daig_editor.language.tokens import Fault, spelling_fault, token_at, token_number
from daig_editor.language.tree import Proc, Program, Span

MOST_PIECES_KEPT = 100_000
SPELLING_FAULTS = ("BadByte", "NameTooLong", "NumberTooBig")

_SEPARATOR = re.compile(rb"//[^\n]*|([;{}])")


class TextReader:
    """Reads texts, and keeps what their pieces say."""

    def __init__(self) -> None:
        self._pieces: dict[bytes, Piece] = {}
        self._last = _Last(b"", Program([]))

    def read(self, text: bytes) -> Program:
        """The program of a text; raises its first fault. What the last text has too is shared with its program."""
        change = Change.between(self._last.text, text)
        builder = ProgramBuilder()
        start = self._last.begin(builder, change)
        try:
            for start, end in _places(text, start):
                if start >= change.new_end and self._last.end(builder, change, start):
                    return self._keep(text, Program(builder.procs))
                builder.add(self._piece(text, start, end), start)
                start = end
            return self._keep(text, builder.finish(text, start))
        except Fault as fault:
            # A fault of spelling goes before all others. The lines that the last program has too have none.
            end = text.find(b"\n", change.new_end)
            first = text.rfind(b"\n", 0, change.start) + 1
            raise spelling_fault(text, first, end if end >= 0 else None) or fault from None

    def _keep(self, text: bytes, program: Program) -> Program:
        """Keeps a program for the next text."""
        self._last = _Last(text, program)
        return program

    def _piece(self, text: bytes, start: int, end: int) -> Piece | Unread:
        """What the piece between two places says."""
        spelling = text[start:end]
        piece = self._pieces.get(spelling)
        if piece is None:
            try:
                piece = PieceReader(spelling).piece()
            except Fault as fault:
                return Unread(spelling, fault)
            misspelt = spelling_fault(spelling)
            if misspelt:
                return Unread(spelling, misspelt)
            if len(self._pieces) >= MOST_PIECES_KEPT:
                self._pieces.clear()
            self._pieces[spelling] = piece
        return piece


def _places(text: bytes, start: int = 0) -> Iterator[tuple[int, int]]:
    """Where the pieces of a text begin and end, from a place where one begins."""
    for match in _SEPARATOR.finditer(text, start):
        if match.lastindex:
            end = match.end()
            yield start, end
            start = end


def span_of_fault(text: bytes, name: str, at: int) -> Span:
    """Where a fault in the server's words stands: at a byte for one of spelling, else at a token by its number."""
    return token_at(text, at) if name in SPELLING_FAULTS else token_number(text, at)


@dataclass(frozen=True, slots=True)
class Change:
    """Where two texts differ: from `start` up to `old_end` in the one, up to `new_end` in the other."""

    start: int
    old_end: int
    new_end: int

    @staticmethod
    def between(old: bytes, new: bytes) -> Change:
        """The least such part."""
        most = min(len(old), len(new))
        front = equal_front(old, new, most)
        back = equal_front(old[::-1], new[::-1], most - front)
        return Change(front, len(old) - back, len(new) - back)


def equal_front(left: bytes, right: bytes, most: int) -> int:
    """How many bytes two texts have in common at the front, at most so many."""
    low, high = 0, most
    while low < high:
        middle = (low + high + 1) // 2
        if left[low:middle] == right[low:middle]:
            low = middle
        else:
            high = middle - 1
    return low


@dataclass(frozen=True, slots=True)
class _Last:
    """A text that was read, with its program, for the next text to share."""

    text: bytes
    program: Program

    def begin(self, builder: ProgramBuilder, change: Change) -> int:
        """Puts all before a change into the builder; answers where the first piece to be read begins."""
        start = 0
        for proc in self.program.procs:
            if proc.span.end > change.start:
                return builder.begin_with(proc, _many_before(proc, change.start), start)
            builder.procs.append(proc)
            start = proc.span.end
        return start

    def end(self, builder: ProgramBuilder, change: Change, start: int) -> bool:
        """Puts all after a place after the change into the builder, where an outermost statement ends there."""
        if builder.proc is None or builder.owners:
            return False
        shift = change.new_end - change.old_end
        for index, proc in enumerate(self.program.procs):
            if proc.span.holds(start - shift):
                many = _many_before(proc, start - shift)
                if many == 0 or proc.starts[many - 1] + proc.body[many - 1].span.end != start - shift:
                    return False
                builder.end_with(proc, many, shift)
                builder.procs += [it.moved(shift) for it in self.program.procs[index + 1 :]]
                return True
        return False


def _many_before(proc: Proc, place: int) -> int:
    """How many of a procedure's outermost statements end at a place or before it."""
    many = bisect_left(proc.starts, place)
    return many - (many > 0 and proc.starts[many - 1] + proc.body[many - 1].span.end > place)
