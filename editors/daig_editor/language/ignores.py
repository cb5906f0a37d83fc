"""Comments that ignore findings: `// daig: ignore[RULE, ..] reason`.

Such a comment is of the line that it stands on, or, where that has nothing else, of the next line that has.
"""
from __future__ import annotations

import re

from daig_editor.language.places import SourceText
from daig_editor.language.records import dataclass
from daig_editor.language.tree import Span

_BEGIN = b"daig:"
_COMMENT = re.compile(rb"//[ \t]*daig:[ \t]*ignore\b([^\r\n]*)")
_RULES = re.compile(rb"\[([^\]\r\n]*)\]")


@dataclass(frozen=True)
class Ignore:
    """A comment: its place, the line, from 0, whose findings it ignores, and the rules that it names."""

    span: Span
    line: int
    rules: tuple[str, ...]


def ignores_of(text: SourceText) -> list[Ignore]:
    """The comments of a text that ignore findings."""
    if _BEGIN not in text.data:
        return []
    return [it for number in range(len(text.starts)) for it in _of_line(text, number)]


def _of_line(text: SourceText, number: int) -> list[Ignore]:
    """The comments of a line: one after another may stand in the same comment of the language."""
    line = text.line(number)
    found = []
    for match in _COMMENT.finditer(line, max(line.find(b"//"), 0)):
        listed = _RULES.match(match[1])
        rules = listed[1].decode("utf-8", "replace").split(",") if listed else []
        start = text.starts[number] + match.start()
        end = start + len(match[0].rstrip()) if not listed else text.starts[number] + match.start(1) + listed.end()
        meant = number if _has_code(line) else _next_code(text, number)
        found.append(Ignore(Span(start, end), meant, tuple(it.strip() for it in rules)))
    return found


def _has_code(line: bytes) -> bool:
    """Whether a line has anything but space and a comment."""
    return bool(line.partition(b"//")[0].strip())


def _next_code(text: SourceText, number: int) -> int:
    """The next line after one that has code; the line itself where none has."""
    return next((it for it in range(number + 1, len(text.starts)) if _has_code(text.line(it))), number)


def ignored_rules(text: SourceText) -> dict[int, set[str]]:
    """The rules that are ignored at lines, from 0."""
    found: dict[int, set[str]] = {}
    for it in ignores_of(text):
        found.setdefault(it.line, set()).update(it.rules)
    return found


def lines_of_span(text: SourceText, span: Span) -> range:
    """The lines, from 0, that a span touches."""
    return range(text.line_of(span.start), text.line_of(max(span.start, span.end - 1)) + 1)
