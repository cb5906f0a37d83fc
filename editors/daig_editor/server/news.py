"""What the last change of a text made: the faults that may come now, and could not while the text rested before it."""
from __future__ import annotations

from typing import AbstractSet

Faults = AbstractSet[tuple[int, str]]


class News:
    """The faults that may come, by statement and rule, as the text rested last and before its last change; None where
    nothing is known of it, so that nothing is new."""

    def __init__(self) -> None:
        self._rested: Faults | None = None
        self._before: Faults | None = None

    def rest(self, may_come: Faults) -> None:
        """The text rests, and these faults may come. What is new stays so until it changes."""
        self._rested = may_come

    def change(self) -> None:
        """The text changes; changes until it rests are one."""
        if self._rested is not None:
            self._before, self._rested = self._rested, None

    def follow(self, replaced: dict[int, int]) -> None:
        """Statements became others, which have new numbers."""
        if replaced and self._before is not None:
            self._before = {(replaced.get(number, number), rule) for number, rule in self._before}

    def forget(self) -> None:
        """The statements have other numbers."""
        self._rested = self._before = None

    def has(self, number: int, rule: str) -> bool:
        """Whether a fault that may come is new."""
        return self._before is not None and (number, rule) not in self._before
