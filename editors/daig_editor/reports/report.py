"""What each format of the report is, and the counts over all files."""
from __future__ import annotations

import os
from typing import Protocol

from daig_editor.language.records import dataclass, field
from daig_editor.reports.finding import CLEAN, TROUBLE, CheckedFile, Tally
from daig_editor.reports.shown import plural, shown

CANNOT_FAIL = "no run can fail"
OLDER = "this daig is older and knows no other faults than those of bounds, null and assert"
# So many files are named in which no run can fail; without their folder where they have the same.
MOST_NAMED = 8


class Report(Protocol):
    """A format. Files come in the order in which they are told."""

    def file(self, checked: CheckedFile) -> str:
        """What is written as soon as a file is checked."""

    def end(self) -> str:
        """What is written after the last file."""


@dataclass
class Totals:
    """The counts over all files, and the highest status of one. `left_out` counts named files that are excluded, `older`
    files of which only the faults of checks are known; `cannot_fail` names those of which no run ends with a fault."""

    files: int = 0
    bad: int = 0
    known_before: int = 0
    ignored: int = 0
    unselected: int = 0
    untold: int = 0
    left_out: int = 0
    older: int = 0
    cannot_fail: list[str] = field(default_factory=list)
    status: int = CLEAN
    tally: Tally = field(default_factory=Tally)

    def add(self, checked: CheckedFile) -> None:
        """Adds a file."""
        self.files += 1
        self.bad += checked.status == TROUBLE
        self.known_before += checked.known_before
        self.ignored += checked.ignored
        self.unselected += checked.unselected
        self.untold += checked.untold
        self.older += checked.is_older
        self.cannot_fail += [checked.name] if checked.cannot_fail else []
        self.status = max(self.status, checked.status)
        self.tally.add(checked.tally)

    def summary(self) -> str:
        """All files in one line."""
        tally = self.tally
        line = f"{plural(self.files, 'file')}, {plural(tally.checks, 'check')}: "
        line += f"{tally.safe} safe, {tally.may} may fail, "
        line += f"{tally.fails} always fail{'s' * (tally.fails == 1)}, " if tally.fails else ""
        line += f"{tally.dead} never reached"
        line += f", {tally.unknown} not known" if tally.unknown else ""
        line += self._proved()
        if tally.certified or tally.rewritten:
            line += f"; certificates: {tally.certified} hold, {tally.rewritten} written"
        for many, words in (
            (self.known_before, "known from before"),
            (self.ignored, "ignored by comments"),
            (self.unselected, "of other rules"),
            (self.untold, "more, not told"),
        ):
            line += f"; {plural(many, 'finding')} {words}" if many else ""
        line += f"; {plural(self.left_out, 'file')} excluded" if self.left_out else ""
        line += f"; {OLDER}" if self.older else ""
        return line + (f"; {plural(self.bad, 'file')} could not be checked" if self.bad else "")

    def _proved(self) -> str:
        """In which files no run can fail."""
        if not self.cannot_fail or self.files == 1:
            return f"; {CANNOT_FAIL}" * len(self.cannot_fail)
        is_one_folder = len({os.path.dirname(it) for it in self.cannot_fail}) == 1
        names = [shown(os.path.basename(it) if is_one_folder else it) for it in self.cannot_fail[:MOST_NAMED]]
        more = len(self.cannot_fail) - len(names)
        return f"; {CANNOT_FAIL} in {', '.join(names)}" + (f" and {more} more" if more else "")
