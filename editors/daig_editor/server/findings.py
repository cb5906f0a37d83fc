"""What the server finds in a program: faults that may come, and the loop that used up its budget."""
from __future__ import annotations

from daig_editor.language.checks import SLIGHT
from daig_editor.language.places import SourceText
from daig_editor.language.records import dataclass, field
from daig_editor.language.tree import Placed


@dataclass(frozen=True)
class Finding:
    """What is said of a fault at a statement, by its rule, and what was found out about it since.

    `ends`: no run goes on after the statement. `inputs`: those of a run that fails there. `causes`: the statements that
    its verdict hangs on. `path`: the last steps of the run with these inputs, each with what is said of it. `alone`: no other
    fault may come there. `is_new`: it was safe before the last change.
    """

    place: Placed
    rule: str
    verdict: str
    ends: bool = False
    inputs: tuple[int, ...] | None = None
    causes: tuple[Placed, ...] = ()
    path: tuple[tuple[Placed, str], ...] = ()
    alone: bool = True
    is_new: bool = False

    @property
    def is_certain(self) -> bool:
        """Whether each run that comes there fails, or some run is known that does."""
        return self.verdict == "fails" or self.inputs is not None

    @property
    def is_slight(self) -> bool:
        """Whether it weighs less than others, since nearly every sum may pass the limits."""
        return self.rule == SLIGHT and self.verdict == "may" and not (self.is_certain or self.ends or self.is_new)

    @property
    def weight(self) -> tuple[bool, bool, bool]:
        """What is told first has the least: what is certain, what the last change made, the rest, what is slight."""
        return not self.is_certain, not self.is_new, self.is_slight


@dataclass(frozen=True)
class Over:
    """A loop that used up its budget, and what to say of it."""

    loop: Placed
    words: str


@dataclass
class Tally:
    """How many checks a procedure has, and how many of them are safe; each fault that may come at a statement is one."""

    checks: int = 0
    safe: int = 0


@dataclass(frozen=True)
class Report:
    """The findings on a text but the safe ones, the loop that used up its budget, and the checks of each procedure.

    `partial`: the analysis still runs, and more may be found. `is_whole`: all faults that are wanted are judged in it.
    `may_come` are all that may, by statement and rule.
    """

    text: SourceText
    findings: list[Finding]
    over: Over | None
    tallies: dict[str, Tally] = field(default_factory=dict)
    partial: bool = False
    is_whole: bool = True
    may_come: frozenset[tuple[int, str]] = frozenset()
