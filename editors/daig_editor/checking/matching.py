"""Which statements of a program became which of another, and where a change can be seen."""
from __future__ import annotations

from typing import NamedTuple

from daig_editor.language.edits import aligned
from daig_editor.language.tree import Proc, Program, Stmt, StmtKind


class Match(NamedTuple):
    """A statement that stayed, or became another of its shape."""

    old: Stmt
    new: Stmt


class Spot(NamedTuple):
    """A location that both programs have: at two matched statements, or at the end of a procedure."""

    at: str
    match: Match | None
    proc: str

    @property
    def old(self) -> str:
        """The location in the old program, in the server's words."""
        return f"{self.at} {self.match.old.number if self.match else self.proc}"

    @property
    def new(self) -> str:
        """The location in the new program, in the server's words."""
        return f"{self.at} {self.match.new.number if self.match else self.proc}"


class Matches:
    """The matched statements of two programs, and the spots where states are compared."""

    def __init__(self, old: Program, new: Program) -> None:
        self.pairs: list[Match] = []
        self.spots: list[Spot] = []
        for proc in new.procs:
            before = old.proc(proc.name)
            if before:
                self._block(before.body, proc.body, proc, None)

    def _block(self, old: list[Stmt], new: list[Stmt], proc: Proc, owner: Match | None) -> None:
        """Matches the statements of two blocks."""
        moved = False
        for had, has in aligned(old, new):
            if had is None or has is None:
                moved = True
                continue
            match = Match(had, has)
            if moved:
                self.spots.append(Spot("before", match, proc.name))
            moved = False
            self._pair(match, proc)
        if moved:
            self.spots.append(Spot("after", owner, proc.name) if owner else Spot("end", None, proc.name))

    def _pair(self, match: Match, proc: Proc) -> None:
        """Adds a match, and those of the blocks inside."""
        self.pairs.append(match)
        if match.new.kind is StmtKind.WHILE:
            self.spots.append(Spot("head", match, proc.name))
        if match.old.text != match.new.text and match.new.kind is not StmtKind.WHILE:
            self.spots.append(Spot("after", match, proc.name))
        self._block(match.old.then, match.new.then, proc, match)
        self._block(match.old.other, match.new.other, proc, match)

    def told(self) -> list[Spot]:
        """Each spot once."""
        return list({it.old: it for it in self.spots}.values())
