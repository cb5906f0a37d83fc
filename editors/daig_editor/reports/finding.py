"""What is told of a file: findings, counts and states; and the fingerprint by which a finding is known again."""
from __future__ import annotations

import json
from enum import Enum, IntEnum
from functools import cached_property
from typing import NamedTuple

from daig_editor.language.places import SourceText
from daig_editor.language.records import dataclass, field
from daig_editor.language.tree import Span
from daig_editor.reports.project import ProjectPath, project_path

CLEAN, FINDINGS, TROUBLE = 0, 1, 2
# Where a finding stands that is of no place of the text.
WHOLE_FILE = Span(0, 0)
TROUBLE_RULES = ("source", "run")


class Level(Enum):
    """How bad a finding is, in the words of compilers and of SARIF."""

    ERROR = "error"
    WARNING = "warning"
    NOTE = "note"


class Weight(IntEnum):
    """What is told first: what is certain, then what a change made, then the rest, of which slight things come last."""

    CERTAIN = 0
    NEW = 1
    PLAIN = 2
    SLIGHT = 3


class Key(NamedTuple):
    """By what a finding is known again, with its file: moved lines, layout and comments are no part of it."""

    procedure: str
    statement: str
    check: str
    ordinal: int = 0


@dataclass(frozen=True)
class Finding:
    """One finding. `known` are the states before it, `causes` what they depend on, what matters most first, `inputs` those of a run that fails.

    `related` are other places, each with what it is; `path` are the last places of the run, with what is set there, and
    `values` what its variables are at its end. `number` is that of the statement in the program that was asked, 0
    of none. `is_new`: it was safe before a change; `is_slight`: it weighs less than others of its level.
    """

    rule: str
    level: Level
    span: Span
    message: str
    key: Key
    known: tuple[str, ...] = ()
    causes: tuple[Span, ...] = ()
    notes: tuple[str, ...] = ()
    related: tuple[tuple[Span, str], ...] = ()
    inputs: tuple[int, ...] | None = None
    values: tuple[str, ...] = ()
    path: tuple[tuple[Span, str], ...] = ()
    number: int = field(default=0, compare=False)
    is_new: bool = False
    is_slight: bool = False

    @property
    def weight(self) -> Weight:
        """What it is told before or after."""
        if self.level is Level.ERROR:
            return Weight.CERTAIN
        return Weight.NEW if self.is_new else Weight.SLIGHT if self.is_slight else Weight.PLAIN

    @property
    def status(self) -> int:
        """The status that it asks for."""
        if self.rule in TROUBLE_RULES:
            return TROUBLE
        return CLEAN if self.level is Level.NOTE else FINDINGS


@dataclass
class Tally:
    """How many checks there are of each verdict; one that is not known stands after a loop that used up its budget. Each
    fault that a statement can end a run with is one.

    `certified` certificates held, `rewritten` ones were written.
    """

    checks: int = 0
    safe: int = 0
    may: int = 0
    fails: int = 0
    dead: int = 0
    unknown: int = 0
    certified: int = 0
    rewritten: int = 0

    def add(self, other: Tally) -> None:
        """Adds the counts of another file."""
        for name, many in vars(other).items():
            setattr(self, name, getattr(self, name) + many)


class StateLine(NamedTuple):
    """What is known at a place of the text, in a line for each part of the domain."""

    span: Span
    lines: tuple[str, ...]


@dataclass
class CheckedFile:
    """A file and what is told of it, and why other findings are not told.

    `known_before` counts those that a baseline or the old text has, `ignored` those that a comment ignores, `unselected`
    those of rules that are not wanted, `untold` those beyond the most that are told. `has_baseline`: those that are told
    are in no baseline. `tells_all`: all faults are known; `is_older`: the program that was asked knows those of checks
    alone. `cannot_fail`: no run ends with a fault.
    """

    name: str
    source: SourceText
    findings: list[Finding] = field(default_factory=list)
    tally: Tally = field(default_factory=Tally)
    states: list[StateLine] = field(default_factory=list)
    known_before: int = 0
    ignored: int = 0
    unselected: int = 0
    untold: int = 0
    untold_status: int = CLEAN
    has_baseline: bool = False
    tells_all: bool = False
    is_older: bool = False
    cannot_fail: bool = False

    def sort(self) -> None:
        """Puts the findings into the order in which they are told; what is of the whole file comes after its places."""
        self.findings.sort(key=lambda it: (it.weight, it.span == WHOLE_FILE, it.span))

    @property
    def status(self) -> int:
        """The status of this file alone."""
        return max([self.untold_status, *(it.status for it in self.findings)])

    @cached_property
    def path(self) -> ProjectPath:
        """Where the file really is."""
        return project_path(self.name)

    def fingerprint(self, finding: Finding) -> str:
        """By what a finding of this file is known again: of file, procedure, printed statement, check and ordinal."""
        import hashlib  # loads much, and few formats have fingerprints

        words = json.dumps([self.path.path, *finding.key])
        return hashlib.sha256(words.encode()).hexdigest()[:32]


def troubled(name: str, words: str) -> CheckedFile:
    """A file that could not be checked."""
    return CheckedFile(name, SourceText.of(b"", True), [trouble(words)])


def trouble(words: str, part: str = "") -> Finding:
    """Why a file, or a part of what is asked of it, could not be checked."""
    return Finding("run", Level.ERROR, WHOLE_FILE, words, Key("", part, "run"))
