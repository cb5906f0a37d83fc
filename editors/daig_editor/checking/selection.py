"""Which findings of a file are told: not those that a comment ignores, that are of other rules, or that are known."""
from __future__ import annotations

from daig_editor.checking.baseline import Baseline
from daig_editor.language.ignores import Ignore, ignores_of, lines_of_span
from daig_editor.language.records import dataclass, replace
from daig_editor.reports.finding import TROUBLE, TROUBLE_RULES, CheckedFile, Finding, Key, Level
from daig_editor.reports.suggestion import meant
from daig_editor.reports.tool import CHECK_RULES, IGNORE_RULE

_LEVELS = (Level.ERROR, Level.WARNING, Level.NOTE)


@dataclass(frozen=True)
class Selection:
    """The rules that are told, all where it is None, and the baseline, if there is one."""

    rules: frozenset[str] | None = None
    baseline: Baseline | None = None

    def tells(self, rule: str) -> bool:
        """Whether findings of a rule are told. Why a file is not checked is always told."""
        return rule in TROUBLE_RULES or self.rules is None or rule in self.rules

    def apply(self, checked: CheckedFile) -> None:
        """Leaves out of a file what is not told."""
        _ignore(checked, self)
        told = [it for it in checked.findings if self.tells(it.rule)]
        checked.unselected = len(checked.findings) - len(told)
        # What changed, and why a file could not be checked, is always told.
        new = [it for it in told if it.status == TROUBLE or it.rule == "change" or not self._knows(checked, it)]
        checked.known_before += len(told) - len(new)
        checked.findings, checked.has_baseline = new, self.baseline is not None
        if self.baseline and self.baseline.tells_all:
            checked.findings = [_raised(it) for it in new]
        checked.sort()

    def _knows(self, checked: CheckedFile, finding: Finding) -> bool:
        """Whether a finding is a known one."""
        return self.baseline is not None and checked.fingerprint(finding) in self.baseline.known


def _raised(finding: Finding) -> Finding:
    """A finding that the baseline would have: a slight one weighs more where it is new."""
    return replace(finding, level=Level.WARNING, is_new=True) if finding.is_slight else finding


class Limit:
    """The most findings that are told over all files; of a file, errors go before warnings, and these before notes."""

    def __init__(self, most: int | None) -> None:
        self._left = most

    def apply(self, checked: CheckedFile) -> None:
        """Leaves out of a file what is beyond the limit. Why it could not be checked is always told."""
        if self._left is None or len(checked.findings) <= self._left:
            self._left = None if self._left is None else self._left - len(checked.findings)
            return
        order = sorted(checked.findings, key=lambda it: (it.status != TROUBLE, _LEVELS.index(it.level), it.weight))
        always = sum(it.status == TROUBLE for it in order)
        first = {id(it) for it in order[: max(self._left, always)]}
        untold = [it for it in checked.findings if id(it) not in first]
        checked.untold, checked.untold_status = len(untold), max((it.status for it in untold), default=0)
        checked.findings = [it for it in checked.findings if id(it) in first]
        self._left = max(self._left - len(checked.findings), 0)


# ---------------------------------------------------------------------------------------------------------------------
# Comments


def _ignore(checked: CheckedFile, selection: Selection) -> None:
    """Leaves out the findings that comments ignore, and tells of comments that ignore none or are wrong."""
    comments = ignores_of(checked.source)
    if not comments:
        return
    used: set[tuple[Ignore, str]] = set()
    told = []
    for finding in checked.findings:
        lines = lines_of_span(checked.source, finding.span) if finding.rule in CHECK_RULES else range(0)
        by = {(it, finding.rule) for it in comments if it.line in lines and finding.rule in it.rules}
        used |= by
        if not by:
            told.append(finding)
    checked.ignored = len(checked.findings) - len(told)
    analysed = checked.status != TROUBLE
    for number, comment in enumerate(comments):
        told += _of_comment(comment, number, [it for it in comment.rules if (comment, it) in used], selection, analysed)
    checked.findings = told


def _of_comment(
    comment: Ignore, number: int, used: list[str], selection: Selection, analysed: bool
) -> list[Finding]:
    """What is told of a comment."""
    found = []
    wrong = [it for it in comment.rules if it not in CHECK_RULES]
    if not comment.rules:
        found.append((Level.WARNING, "a list of rules is wanted: `// daig: ignore[RULE] reason`"))
    for rule in wrong:
        found.append((Level.WARNING, f"there is no rule `{rule}` to ignore{meant(rule, CHECK_RULES)}"))
    idle = [it for it in comment.rules if it in CHECK_RULES and it not in used and selection.tells(it)]
    if idle and analysed:
        found.append((Level.NOTE, f"nothing to ignore: no finding of {', '.join(idle)} stands here"))
    return [
        Finding(IGNORE_RULE, level, comment.span, words, Key("", words, IGNORE_RULE, number)) for level, words in found
    ]
