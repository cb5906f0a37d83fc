"""Findings for people: checks in a row that are never reached, for the same reason mostly, are told once, and so are the
notes of a file on numbers that may pass their limits."""
from __future__ import annotations

from itertools import groupby
from typing import Iterator

from daig_editor.language.places import SourceText
from daig_editor.language.records import replace
from daig_editor.language.words import NEVER
from daig_editor.reports.finding import CheckedFile, Finding, Level
from daig_editor.reports.regions import lines_of
from daig_editor.reports.shown import plural

SLIGHT = ("slight", Level.NOTE.value)
# So many lines of slight notes are told.
MOST_LINES = 24


def folded(checked: CheckedFile) -> Iterator[Finding]:
    """The findings of a file, of which those in a row that tell of the same procedure's dead checks are one, and so are all
    slight notes."""
    for kind, run in groupby(checked.findings, _kind):
        found = list(run)
        if kind is None or len(found) == 1:
            yield from found
        elif kind == SLIGHT:
            yield _slight(checked.source, found)
        else:
            yield _dead(checked.source, found)


def _kind(finding: Finding) -> tuple[str, str] | None:
    """What is equal for findings that are told as one; None for one that stands alone."""
    if finding.is_slight and finding.level is Level.NOTE:
        return SLIGHT
    alone = finding.message != NEVER or finding.notes
    return None if alone else (finding.key.procedure, finding.level.value)


def _slight(source: SourceText, found: list[Finding]) -> Finding:
    """Several slight notes as one, at the first, with the lines of all."""
    told = f"{found[0].message} here and at {plural(len(found) - 1, 'more statement')}"
    lines = lines_of(source, [it.span for it in found])
    more = f" and {len(lines) - MOST_LINES} more" if len(lines) > MOST_LINES else ""
    line = f"line{'s' if len(lines) > 1 else ''} {', '.join(map(str, lines[:MOST_LINES]))}{more}"
    return replace(found[0], message=told, known=(), notes=(line,))


def _dead(source: SourceText, found: list[Finding]) -> Finding:
    """Several findings as one, at the first."""
    last = source.line_of(found[-1].span.start) + 1
    more = plural(len(found) - 1, "more check").replace(str(len(found) - 1), f"{len(found) - 1:,}", 1)
    return replace(found[0], message=f"{NEVER}, nor {'is' if len(found) == 2 else 'are'} {more} up to line {last}")
