"""Cuts texts into tokens, and finds the first byte that belongs to none.

A token never goes over the end of a line, and neither does a comment: what a line is made of does not depend on others.
"""
from __future__ import annotations

import re
from typing import Iterator, NamedTuple

from daig_editor.language.records import dataclass, field
from daig_editor.language.tree import Span

RESERVED = frozenset(
    "proc var int array list skip input null new next item assert if else while call len break".split()
)
RELATIONS = ("==", "!=", "<", "<=", ">", ">=")
KINDS = ("int", "array", "list")
GREATEST_SOURCE = 1_048_576
LONGEST_NAME = 32
GREATEST_NUMBER = 2**63 - 1
NUMBER_DIGITS = 19

_TOKEN = re.compile(
    rb"(?P<space>[ \t\r\n]+)"
    rb"|(?P<comment>//[^\n]*)"
    rb"|(?P<name>[A-Za-z_][A-Za-z0-9_]*)"
    rb"|(?P<number>[0-9]+)"
    rb"|(?P<mark>->|==|!=|<=|>=|&&|\|\||[(){}\[\]:;,.=<>+\-*/%!])"
    rb"|(?P<bad>[\x00-\xff])"
)
# What is stepped over on the way, then what may be wrong. Only a whole name or number is looked at, never a part.
_SUSPECT = re.compile(
    rb"//[^\n]*|&&|\|\|"
    rb"|(?P<bad>[^ \t\r\nA-Za-z0-9_(){}\[\]:;,.=<>+\-*/%!])"
    rb"|(?P<name>[A-Za-z_][A-Za-z0-9_]{32,})"
    rb"|(?P<number>(?<![A-Za-z0-9_])[0-9]{19,})"
)


@dataclass(frozen=True)
class Fault(Exception):
    """The first fault of a text: its name in the server's words, and where it stands.

    `wanted` is what could stand there in its place, `word` what stands there, `before` the word before it.
    """

    name: str
    span: Span
    wanted: tuple[str, ...] = field(default=(), compare=False)
    word: str = field(default="", compare=False)
    before: str = field(default="", compare=False)

    def moved(self, many: int) -> Fault:
        """The fault so many bytes further on."""
        return Fault(self.name, self.span.moved(many), self.wanted, self.word, self.before)


class Token(NamedTuple):
    """A token's spelling, its place and its kind: name, number, mark, comment or bad."""

    word: str
    span: Span
    kind: str

    def is_name(self) -> bool:
        """Whether it names something of the program."""
        return self.kind == "name" and self.word not in RESERVED

    def is_word(self) -> bool:
        """Whether it is a word of the language."""
        return self.kind == "name" and self.word in RESERVED


def tokens(text: bytes) -> Iterator[Token]:
    """The tokens of a text that has no fault of spelling, without its comments."""
    for match in _TOKEN.finditer(text):
        kind = match.lastgroup
        if kind != "space" and kind != "comment":
            yield Token(match.group().decode("latin-1"), Span(match.start(), match.end()), kind or "bad")


def scanned(text: bytes, start: int = 0, end: int | None = None) -> Iterator[Token]:
    """All tokens of a text and its comments, whatever is wrong with them."""
    for match in _TOKEN.finditer(text, start, len(text) if end is None else end):
        kind = match.lastgroup
        if kind != "space":
            word = match.group().rstrip(b"\r") if kind == "comment" else match.group()
            yield Token(word.decode("utf-8", "replace"), Span(match.start(), match.start() + len(word)), kind or "bad")


def token_at(text: bytes, place: int) -> Span:
    """The span of the token, or of the byte that is none, at a place."""
    match = _TOKEN.match(text, place)
    return Span(place, match.end() if match else place)


def token_number(text: bytes, number: int) -> Span:
    """The span of a token by its number, from 0; after the last one an empty span at its end."""
    last = 0
    for match in _TOKEN.finditer(text):
        if match.lastgroup == "space" or match.lastgroup == "comment":
            continue
        if number == 0:
            return Span(match.start(), match.end())
        number -= 1
        last = match.end()
    return Span(last, last)


def spelling_fault(text: bytes, start: int = 0, end: int | None = None) -> Fault | None:
    """The first fault of spelling between two places; `start` is the start of a line, or of a token or a space."""
    for match in _SUSPECT.finditer(text, start, len(text) if end is None else end):
        kind, span = match.lastgroup, Span(match.start(), match.end())
        if kind == "bad":
            return Fault("BadByte", Span(span.start, span.start + 1))
        if kind == "name":
            return Fault("NameTooLong", span)
        if kind == "number" and too_big(match.group()):
            return Fault("NumberTooBig", span)
    return None


def too_big(digits: bytes) -> bool:
    """Whether a number is above the greatest one. It may have more digits than Python turns into a number."""
    plain = digits.lstrip(b"0")
    return len(plain) > NUMBER_DIGITS or (len(plain) == NUMBER_DIGITS and int(plain) > GREATEST_NUMBER)
