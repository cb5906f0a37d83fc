"""Lines and columns of spans, counted from 1: in bytes as compilers do, or in UTF-16 units as SARIF does."""
from __future__ import annotations

from typing import Iterable, NamedTuple

from daig_editor.language.places import SourceText
from daig_editor.language.tree import Span


class Region(NamedTuple):
    """The first line and column, and the last ones, which are one past the last character."""

    line: int
    column: int
    end_line: int
    end_column: int


def byte_region(source: SourceText, span: Span) -> Region:
    """A span's place in bytes."""
    return Region(*_byte_place(source, span.start), *_byte_place(source, span.end))


def utf16_region(source: SourceText, span: Span) -> Region:
    """A span's place in UTF-16 units."""
    return Region(*_utf16_place(source, span.start), *_utf16_place(source, span.end))


def lines_of(source: SourceText, spans: Iterable[Span]) -> list[int]:
    """The lines where spans begin, in their order, each once."""
    return list(dict.fromkeys(source.line_of(it.start) + 1 for it in spans))


def _byte_place(source: SourceText, place: int) -> tuple[int, int]:
    """A byte's line and column in bytes."""
    line = source.line_of(place)
    return line + 1, place - source.starts[line] + 1


def _utf16_place(source: SourceText, place: int) -> tuple[int, int]:
    """A byte's line and column in UTF-16 units."""
    line = source.line_of(place)
    front = source.data[source.starts[line] : place].decode("utf-8", "replace")
    return line + 1, len(front.encode("utf-16-le")) // 2 + 1
