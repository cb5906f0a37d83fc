"""Lays a text out by its tokens: spaces and line breaks alone are changed, and no comment is lost.

What a program without comments becomes is what the server prints of it, except parentheses and blocks that leave no
trace in its tree, and for single empty lines between statements, which stay.
"""
from __future__ import annotations

from typing import NamedTuple

from daig_editor.language.tokens import Token, scanned, spelling_fault
from daig_editor.language.tree import Span

INDENT = "  "
TIGHT_BEFORE = frozenset(";,):].")
TIGHT_AFTER = frozenset("([.!")
OPERANDS = frozenset([")", "]", "null", "input", "new", "next", "item"])
STARTS = frozenset(["", ";", "{", "}"])


class _Gap(NamedTuple):
    """The space between two tokens, as it should be: so many line breaks, or spaces on the line."""

    breaks: int
    text: str


def layout_edits(text: bytes) -> list[tuple[Span, str]]:
    """The spaces of a text that should be others. A text with a byte that is no token is left as it is."""
    if spelling_fault(text):
        return []
    edits = []
    end = 0
    for span, wanted in _gaps(text, list(scanned(text))):
        if text[span.start : span.end] != wanted.encode():
            edits.append((span, wanted))
        end = span.end
    assert end == len(text)
    return edits


def laid_out(text: bytes) -> bytes:
    """A text laid out."""
    parts, last = [], 0
    for span, wanted in layout_edits(text):
        parts += [text[last : span.start], wanted.encode()]
        last = span.end
    return b"".join(parts) + text[last:]


def indentation(text: bytes, line: Span) -> str | None:
    """The space that a line should begin with. None where the text has a byte that is no token."""
    if spelling_fault(text):
        return None
    walk, left = _Walk(), None
    for token in scanned(text):
        if token.span.start >= line.start:
            return walk.space(token if token.span.start < line.end else None)
        walk.take(left, token, 0)
        left = token
    return walk.space(None)


def _gaps(text: bytes, found: list[Token]) -> list[tuple[Span, str]]:
    """Each space between tokens, and what it should be."""
    if not found:
        return [(Span(0, len(text)), "")]
    newline = "\r\n" if b"\r\n" in text else "\n"
    walk = _Walk()
    gaps = [(Span(0, found[0].span.start), "")]
    walk.take(None, found[0], 0)
    for left, right in zip(found, found[1:]):
        span = Span(left.span.end, right.span.start)
        gap = walk.take(left, right, text.count(b"\n", span.start, span.end))
        gaps.append((span, newline * gap.breaks + gap.text))
    gaps.append((Span(found[-1].span.end, len(text)), newline))
    return gaps


class _Walk:
    """Goes over the tokens, and knows how deep blocks are, and what the last token but comments was."""

    def __init__(self) -> None:
        self.depth = 0
        self.last = ""
        self.operand = False
        self.sign = False

    def take(self, left: Token | None, right: Token, breaks: int) -> _Gap:
        """The space before a token that follows another one."""
        if right.word == "}":
            self.depth = max(0, self.depth - 1)
        gap = self._gap(left, right, breaks) if left else _Gap(0, "")
        if right.word == "{":
            self.depth += 1
        if right.kind != "comment":
            self.sign = right.word == "-" and not self.operand
            self.operand = right.kind == "number" or right.is_name() or right.word in OPERANDS
            self.last = right.word
        return gap

    def space(self, right: Token | None) -> str:
        """The space of a line that begins with a token, or has none."""
        inside = self.last not in STARTS
        closes = right is not None and right.word == "}"
        return INDENT * max(0, self.depth - closes + (2 if inside and not closes else 0))

    def _gap(self, left: Token, right: Token, breaks: int) -> _Gap:
        """The space between two tokens."""
        inside = self.last not in STARTS
        space = INDENT * (self.depth + (2 if inside else 0))
        if right.kind == "comment":
            return _Gap(min(breaks, 2) if left.word != "{" else 1, space) if breaks else _Gap(0, "  ")
        if left.kind == "comment":
            return _Gap(self._lines(left, right, breaks), space)
        if self._breaks(left, right):
            return _Gap(self._lines(left, right, breaks), INDENT * self.depth)
        return _Gap(0, " " if self._is_apart(left, right) else "")

    def _breaks(self, left: Token, right: Token) -> bool:
        """Whether the right token begins a line."""
        if left.word == "}":
            return right.word != "else"
        return left.word in ("{", ";") or right.word == "}"

    def _lines(self, left: Token, right: Token, breaks: int) -> int:
        """How many line breaks stand there: an empty line stays, but not at the ends of a block."""
        if left.word == "{" or right.word in ("}", "else"):
            return 1
        return max(1, min(breaks, 2))

    def _is_apart(self, left: Token, right: Token) -> bool:
        """Whether a space stands between two tokens of a line."""
        if left.word in TIGHT_AFTER or right.word in TIGHT_BEFORE or self.sign:
            return False
        if right.word == "(":
            return not left.is_name()
        return right.word != "["
