"""The report as compilers write it, for people; and in a line each, for an editor's list of errors."""
from __future__ import annotations

import re
from typing import Iterator

from daig_editor.language.places import SourceText
from daig_editor.reports.finding import WHOLE_FILE, CheckedFile, Finding, Level
from daig_editor.reports.folding import folded
from daig_editor.reports.regions import byte_region, lines_of
from daig_editor.reports.shown import shown, width

COLOURS = {Level.ERROR: "1;31", Level.WARNING: "1;35", Level.NOTE: "1;36"}
# So many lines that a finding depends on are told; JSON has all.
MOST_LINES = 12
# Between the cases of a state, of which one may be `1 or more cells`; so many stand in one line, and so many are told.
CASES, MOST_IN_LINE, MOST_CASES = re.compile(r" or (?!more cells)"), 2, 12
# Of more facts than so many, those with a variable of the statement are told first, and JSON has all.
MOST_FACTS, NAME = 8, re.compile(r"[A-Za-z_]\w*")
BOLD, GREEN = "1", "1;32"


class BriefReport:
    """A line for each finding: file, line, column, level, words, rule."""

    def file(self, checked: CheckedFile) -> str:
        """The lines of a file."""
        return "".join(f"{heading(checked, it)}\n" for it in folded(checked))

    def end(self) -> str:
        """Nothing."""
        return ""


class TextReport:
    """Each finding with the line where it stands, a mark below it, and what is known."""

    def __init__(self, colour: bool) -> None:
        self._colour = colour

    def file(self, checked: CheckedFile) -> str:
        """The blocks of a file."""
        lines = [line for it in folded(checked) for line in self._block(checked, it)]
        return "".join(f"{it}\n" for it in lines)

    def end(self) -> str:
        """Nothing."""
        return ""

    def _block(self, checked: CheckedFile, finding: Finding) -> Iterator[str]:
        """The lines of a finding."""
        yield heading(checked, finding, self._colour)
        if finding.span != WHOLE_FILE:
            line, marks = _marked(checked.source, finding)
            yield f"{checked.source.line_of(finding.span.start) + 1:5} | {line}".rstrip()
            yield f"      | {self._painted(marks, GREEN)}"
        yield from (f"      = {shown(it)}" for it in details(checked.source, finding))

    def _painted(self, marks: str, colour: str) -> str:
        """Marks in a colour, where there is colour."""
        return painted(marks, colour) if self._colour else marks


def heading(checked: CheckedFile, finding: Finding, colour: bool = False) -> str:
    """The first line of a finding."""
    region = byte_region(checked.source, finding.span)
    where, level = f"{shown(checked.name)}:{region.line}:{region.column}:", f"{finding.level.value}:"
    if colour:
        where, level = painted(where, BOLD), painted(level, COLOURS[finding.level])
    return f"{where} {level} {shown(finding.message)} [{finding.rule}]"


def details(source: SourceText, finding: Finding) -> Iterator[str]:
    """What is said below a finding."""
    yield from (line for it in finding.known for line in _known(_likeliest(it, finding.key.statement)))
    lines = lines_of(source, finding.causes)
    if lines:
        more = f" and {len(lines) - MOST_LINES} more" if len(lines) > MOST_LINES else ""
        yield f"depends on line{'s' if len(lines) > 1 else ''} {', '.join(map(str, lines[:MOST_LINES]))}{more}"
    yield from (f"{words}: line {source.line_of(span.start) + 1}" for span, words in finding.related)
    if finding.path:
        yield f"in this run: {_likeliest(', '.join(finding.values), finding.key.statement)}"
        yield f"it comes here by line{_way(lines_of(source, [span for span, _ in reversed(finding.path)]))}"
    yield from finding.notes


def _way(lines: list[int]) -> str:
    """The lines by which a run comes to the first of them, each where it is done last."""
    more = "s .., " if len(lines) > MOST_LINES else "s " if len(lines) > 1 else " "
    return more + ", ".join(map(str, reversed(lines[:MOST_LINES])))


def _likeliest(state: str, statement: str) -> str:
    """What is known of numbers, without what matters least where it is much; what is known of lists stays whole."""
    facts = state.split(", ")
    if len(facts) <= MOST_FACTS or any(":" in it or "null" in it for it in facts):
        return state
    names = set(NAME.findall(statement)) - {"len"}
    told = sorted(facts, key=lambda it: names.isdisjoint(NAME.findall(it)))[:MOST_FACTS]
    return f"{', '.join(told)} and {len(facts) - MOST_FACTS} more"


def _known(state: str) -> Iterator[str]:
    """What is known, in a line, or in one for each case where there are many."""
    cases = CASES.split(state)
    if len(cases) <= MOST_IN_LINE:
        yield f"known here: {state}"
        return
    yield f"known here, one of {len(cases)} cases:"
    yield from (f"  {it}" for it in cases[:MOST_CASES])
    if len(cases) > MOST_CASES:
        yield f"  and {len(cases) - MOST_CASES} more"


def _marked(source: SourceText, finding: Finding) -> tuple[str, str]:
    """The line where a finding begins, and the marks below it."""
    number = source.line_of(finding.span.start)
    line, start = source.line(number), source.starts[number]
    front = _decoded(line[: finding.span.start - start])
    inside = _decoded(line[: finding.span.end - start].rstrip())
    first, last = width(shown(front)), width(shown(inside))
    return shown(_decoded(line)), " " * first + "^" + "~" * (last - first - 1)


def _decoded(line: bytes) -> str:
    """Bytes as text."""
    return line.decode("utf-8", "replace")


def painted(text: str, colour: str) -> str:
    """Text in a colour of the terminal."""
    return f"\x1b[{colour}m{text}\x1b[0m"
