"""The calls that states are narrowed to, by the user's choice, while the text around them changes."""
from __future__ import annotations

from typing import Callable

from daig_editor.language.places import Shift, SourceText
from daig_editor.language.tree import Proc, Stmt
from daig_editor.server.session import Session

GONE = "the chosen call is gone: states are those of all calls again"
Kept = tuple[SourceText, list[tuple[int, str]]]


class CallChoice:
    """The chosen call string of a document: the numbers of its calls, the outermost first."""

    def __init__(self, session: Session, show: Callable[[str], None]) -> None:
        self.string: list[int] = []
        self._session = session
        self._show = show

    def choose(self, proc: Proc, call: Stmt) -> None:
        """Lets states in the called procedure be those of this call, seen as its own procedure is seen."""
        front = self.string[-1:] if self._leads_to() == proc.name else []
        self.string = [*front, call.number]

    def clear(self) -> None:
        """Lets states be those of all calls."""
        self.string = []

    def within(self, proc: Proc) -> list[int]:
        """The chosen call string, in the procedure that its last call leads to."""
        return self.string if self.string and self._leads_to() == proc.name else []

    def _leads_to(self) -> str | None:
        """The procedure that the chosen calls lead to, while they are there."""
        found = self._session.statements(self.string) if self.string else {}
        if not found or len(found) != len(set(self.string)):
            return None
        return found[self.string[-1]].callee

    def follow(self, replaced: dict[int, int]) -> None:
        """Edits were made: a call that became another one has a new number."""
        if self.string:
            self._set([replaced.get(it, it) for it in self.string])

    def places(self) -> Kept | None:
        """Where the chosen calls stand, before the text is loaded anew."""
        good = self._session.good
        if not self.string or good is None:
            return None
        found = good.program.find_all(set(self.string))
        return good.text, [(found[it].span.start, found[it].stmt.callee or "") for it in self.string if it in found]

    def find(self, kept: Kept | None) -> None:
        """The text was loaded anew: the chosen calls are found again by their places."""
        good = self._session.good
        if not self.string:
            return
        numbers = []
        if kept and good:
            shift = Shift.between(kept[0].data, good.text.data)
            for place, callee in kept[1]:
                now = shift.forth(place)
                here = good.program.at(now + 1) if now is not None else None
                if here and here[1] and here[1].stmt.callee == callee:
                    numbers.append(here[1].stmt.number)
        self._set(numbers if len(numbers) == len(self.string) else [])

    def _set(self, string: list[int]) -> None:
        """Takes a string whose calls may be gone."""
        self.string = string
        if self._leads_to() is None:
            self.string = []
            self._show(GONE)
