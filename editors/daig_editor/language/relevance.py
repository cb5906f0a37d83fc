"""Which of the statements that a finding depends on are told first: those that have its variables, the nearest first."""
from __future__ import annotations

import re
from typing import Iterable, Mapping

from daig_editor.language.tokens import RESERVED
from daig_editor.language.tree import Placed, Proc

_NAME = re.compile(r"[A-Za-z_]\w*")


class Relevance:
    """The variables of statements, each of which is read once. Statements are known by their numbers, with their procedures."""

    def __init__(self, places: Mapping[int, tuple[Proc, Placed]]) -> None:
        self._places = places
        self._names: dict[int, frozenset[str]] = {}

    def ordered(self, of: int, numbers: Iterable[int]) -> list[int]:
        """Statements in the order in which they are told beside another one."""
        (proc, here), wanted = self._places[of], self._variables(of)
        begin = here.head.start

        def key(number: int) -> tuple[bool, bool, int]:
            """First those with a variable of the statement, of its procedure; of these those before it, the last first."""
            its, placed = self._places[number]
            has_one = its is proc and not wanted.isdisjoint(self._variables(number))
            start = placed.head.start
            return not has_one, start > begin, abs(begin - start)

        return sorted(numbers, key=key)

    def _variables(self, number: int) -> frozenset[str]:
        """The variables of a statement."""
        found = self._names.get(number)
        if found is None:
            stmt = self._places[number][1].stmt
            found = frozenset(_NAME.findall(stmt.text)) - RESERVED - {stmt.callee}
            self._names[number] = found
        return found
