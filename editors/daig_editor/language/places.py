"""Places in a text: bytes, lines and positions, and where a place of one text stands in another."""
from __future__ import annotations

from bisect import bisect_right
from itertools import accumulate
from typing import Sequence

from daig_editor.language.records import dataclass, field
from daig_editor.language.text import equal_front
from daig_editor.language.tree import Span

Json = dict[str, object]


@dataclass(frozen=True)
class SourceText:
    """A text by its UTF-8 bytes, with its lines. `utf8`: the client counts bytes, and not UTF-16 units, in a line."""

    data: bytes
    utf8: bool = False
    starts: list[int] = field(default_factory=list, compare=False)

    @staticmethod
    def of(data: bytes, utf8: bool) -> SourceText:
        """The text of these bytes."""
        lines = _split(data)
        return SourceText(data, utf8, [0, *accumulate(map(len, lines[:-1]))])

    def line_of(self, place: int) -> int:
        """The line of a byte, from 0."""
        return bisect_right(self.starts, place) - 1

    def line(self, number: int) -> bytes:
        """A line without its end."""
        end = self.starts[number + 1] if number + 1 < len(self.starts) else len(self.data)
        return self.data[self.starts[number] : end].rstrip(b"\r\n")

    def place(self, position: object) -> int:
        """The byte of a position; past the end of a line it is that end. Raises `ValueError`."""
        number, units = _position(position)
        if number >= len(self.starts):
            return len(self.data)
        return self.starts[number] + _bytes_of(self.line(number), units, self.utf8)

    def position(self, place: int) -> Json:
        """The position of a byte."""
        number = self.line_of(place)
        return {"line": number, "character": self._width(self.data[self.starts[number] : place])}

    def range(self, span: Span) -> Json:
        """The range of a span."""
        return {"start": self.position(span.start), "end": self.position(span.end)}

    def units(self, span: Span) -> tuple[int, int]:
        """Where a span within a line begins and ends in it, as the client counts."""
        start = self.starts[self.line_of(span.start)]
        front, inside = self.data[start : span.start], self.data[span.start : span.end]
        first = self._width(front)
        return first, first + self._width(inside)

    def _width(self, part: bytes) -> int:
        """How wide a part of a line is."""
        if self.utf8 or part.isascii():
            return len(part)
        return len(part.decode("utf-8", "replace").encode("utf-16-le")) // 2

    def changed(self, changes: Sequence[Json]) -> SourceText:
        """The text after some changes, one after the other, each of a range or of all. Raises `ValueError`."""
        within = self._within_line(changes[0]) if len(changes) == 1 else None
        if within:
            return within
        text = self
        lines: _Lines | None = None
        for change in changes:
            new = change.get("text")
            if not isinstance(new, str):
                raise ValueError("a change without a text")
            data, where = new.encode("utf-8", "replace"), change.get("range")
            if where is None:
                text, lines = SourceText.of(data, self.utf8), None
                continue
            if not isinstance(where, dict):
                raise ValueError("a range is wanted")
            lines = lines or _Lines(text.data, self.utf8)
            lines.change(_position(where.get("start")), _position(where.get("end")), data)
        return SourceText.of(b"".join(lines.lines), self.utf8) if lines else text

    def _within_line(self, change: Json) -> SourceText | None:
        """The text after a change that begins and ends no line, which a key stroke mostly is; None for any other."""
        new, where = change.get("text"), change.get("range")
        if not isinstance(new, str) or not isinstance(where, dict) or "\n" in new or "\r" in new:
            return None
        start, end = self.place(where.get("start")), self.place(where.get("end"))
        line = self.line_of(start)
        if end < start or self.line_of(end) != line or self.data[start - 1 : start] == b"\r":
            return None
        data = new.encode("utf-8", "replace")
        moved = start + len(data) - end
        starts = self.starts[: line + 1] + [it + moved for it in self.starts[line + 1 :]]
        return SourceText(self.data[:start] + data + self.data[end:], self.utf8, starts)


def _position(position: object) -> tuple[int, int]:
    """The line and the character of a position; raises `ValueError`."""
    if isinstance(position, dict):
        line, character = position.get("line"), position.get("character")
        if type(line) is int and type(character) is int and line >= 0 and character >= 0:
            return line, character
    raise ValueError("no position")


def _bytes_of(line: bytes, units: int, utf8: bool) -> int:
    """How many bytes of a line so many of the client's units are; at most up to the line's end."""
    line = line.rstrip(b"\r\n")
    if utf8:
        while 0 < units < len(line) and line[units] & 0xC0 == 0x80:
            units -= 1
        return min(units, len(line))
    if line.isascii():
        return min(units, len(line))
    text = line.decode("utf-8", "surrogatepass").encode("utf-16-le", "surrogatepass")[: 2 * units]
    return len(text.decode("utf-16-le", "ignore").encode())


class _Lines:
    """The lines of a text while it is changed at several places; each change costs what it touches."""

    def __init__(self, data: bytes, utf8: bool) -> None:
        self.lines = _split(data)
        self._utf8 = utf8

    def change(self, start: tuple[int, int], end: tuple[int, int], new: bytes) -> None:
        """Puts a text in the place of a range."""
        first, front = self._place(*start)
        last, back = max((first, front), self._place(*end))
        kept = self.lines[first][:front] + new + self.lines[last][back:]
        if first and self.lines[first - 1].endswith(b"\r"):
            first -= 1
            kept = self.lines[first] + kept
        whole = _split(kept)
        if last + 1 < len(self.lines):
            whole.pop()  # what follows the last line's end is the next line
        self.lines[first : last + 1] = whole

    def _place(self, line: int, units: int) -> tuple[int, int]:
        """A position as a line and its byte; beyond the last line it is the end."""
        if line >= len(self.lines):
            return len(self.lines) - 1, len(self.lines[-1])
        return line, _bytes_of(self.lines[line], units, self._utf8)


def _split(data: bytes) -> list[bytes]:
    """The lines of a text with their ends; the last one has none."""
    lines = data.splitlines(keepends=True)
    if not lines or lines[-1].endswith((b"\n", b"\r")):
        lines.append(b"")
    return lines


@dataclass(frozen=True)
class Shift:
    """How places of one text stand in another: what is before the first difference, and after the last."""

    front: int
    back: int
    old_size: int
    new_size: int

    @staticmethod
    def between(old: bytes, new: bytes) -> Shift:
        """The shift from one text to another. A difference over several lines is taken as one of whole lines."""
        most = min(len(old), len(new))
        front = equal_front(old, new, most)
        back = equal_front(old[::-1], new[::-1], most - front)
        if b"\n" in old[front : len(old) - back] or b"\n" in new[front : len(new) - back]:
            front = old.rfind(b"\n", 0, front) + 1
            back = _whole_lines(old, equal_front(old[::-1], new[::-1], most - front))
        return Shift(front, back, len(old), len(new))

    def forth(self, place: int) -> int | None:
        """Where a place of the old text is in the new one, if it is not within the difference."""
        if place <= self.front:
            return place
        return place + self.new_size - self.old_size if place >= self.old_size - self.back else None

    def span(self, span: Span) -> Span | None:
        """Where a span of the old text is in the new one, if no end is within the difference."""
        start, end = self.forth(span.start), self.forth(span.end)
        return Span(start, end) if start is not None and end is not None and start <= end else None

    def reversed(self) -> Shift:
        """The shift from the new text to the old one."""
        return Shift(self.front, self.back, self.new_size, self.old_size)


def _whole_lines(text: bytes, back: int) -> int:
    """How many of the last bytes are whole lines."""
    start = len(text) - back
    if start == 0 or text[start - 1 : start] == b"\n":
        return back
    end = text.find(b"\n", start)
    return len(text) - end - 1 if end >= 0 else 0
