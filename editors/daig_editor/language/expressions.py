"""The values of expressions and conditions, as the language says; see docs/LANGUAGE.md."""
from __future__ import annotations

from typing import Any, Callable

from daig_editor.language.records import dataclass
from daig_editor.language.tokens import RELATIONS, tokens

GREATEST = 2**63 - 1
# The variables of a frame: numbers, arrays as lists of them, and lists as their first cell, or None for null.
Values = dict[str, Any]
Value = Callable[[Values], Any]


@dataclass
class Cell:
    """A cell of a list."""

    item: int = 0
    next: Cell | None = None


class RunFault(Exception):
    """A fault that ends a run."""


def fitting(number: int) -> int:
    """A number of 64 bits."""
    if -GREATEST - 1 <= number <= GREATEST:
        return number
    raise RunFault("overflow")


def expression(text: str) -> Value:
    """What an expression, or one side of a comparison, evaluates to."""
    return _Reader(text).expression()


def condition(text: str) -> Value:
    """What a condition evaluates to."""
    return _Reader(text).condition()


def arguments(text: str) -> list[Value]:
    """What the arguments of a call evaluate to, where the text begins with their `(`."""
    reader, found = _Reader(text), []
    reader.take()
    while reader.next != ")":
        found.append(reader.expression())
        if reader.next == ",":
            reader.take()
    return found


class _Reader:
    """Reads a text that has no fault; what it has read is evaluated from left to right."""

    def __init__(self, text: str) -> None:
        self._words = [it.word for it in tokens(text.encode())]
        self._at = 0

    @property
    def next(self) -> str:
        """The next token; nothing at the end."""
        return self._words[self._at] if self._at < len(self._words) else ""

    def take(self) -> str:
        """The next token, which is read."""
        self._at += 1
        return self._words[self._at - 1]

    def expression(self) -> Value:
        """Sums."""
        found = self._term()
        while self.next in ("+", "-"):
            found = _binary(self.take(), found, self._term())
        return found

    def _term(self) -> Value:
        """Products."""
        found = self._factor()
        while self.next in ("*", "/", "%"):
            found = _binary(self.take(), found, self._factor())
        return found

    def _factor(self) -> Value:
        """What has no operator, or the sign."""
        word = self.take()
        if word == "-":
            inner = self._factor()
            return lambda values: fitting(-inner(values))
        if word == "(":
            inner = self.expression()
            self.take()
            return inner
        if word == "len":
            name = self.take()
            return lambda values: len(values[name])
        if word == "null":
            return lambda values: None
        if word.isdigit():
            number = int(word)
            return lambda values: number
        return lambda values: values[word]

    def condition(self) -> Value:
        """Alternatives."""
        found = self._conjunction()
        while self.next == "||":
            self.take()
            found = _either(found, self._conjunction())
        return found

    def _conjunction(self) -> Value:
        """What holds together."""
        found = self._unit()
        while self.next == "&&":
            self.take()
            found = _both(found, self._unit())
        return found

    def _unit(self) -> Value:
        """A comparison, or a condition in parentheses."""
        if self.next in ("!", "("):
            is_denied = self.take() == "!"
            if is_denied:
                self.take()
            inner = self.condition()
            self.take()
            return (lambda values: not inner(values)) if is_denied else inner
        first = self.expression()
        relation = self.take()
        assert relation in RELATIONS
        return _compared(relation, first, self.expression())


def _either(first: Value, second: Value) -> Value:
    """One of two conditions; the second is not looked at where the first holds."""
    return lambda values: first(values) or second(values)


def _both(first: Value, second: Value) -> Value:
    """Two conditions; the second is looked at where the first holds."""
    return lambda values: first(values) and second(values)


def _compared(relation: str, first: Value, second: Value) -> Value:
    """A comparison of two numbers, or of two lists, which are the same where their first cells are."""
    compared: dict[str, Callable[[Any, Any], bool]] = {
        "==": lambda a, b: a is b if isinstance(a, Cell) or a is None else bool(a == b),
        "!=": lambda a, b: a is not b if isinstance(a, Cell) or a is None else bool(a != b),
        "<": lambda a, b: bool(a < b),
        "<=": lambda a, b: bool(a <= b),
        ">": lambda a, b: bool(a > b),
        ">=": lambda a, b: bool(a >= b),
    }
    holds = compared[relation]
    return lambda values: holds(first(values), second(values))


def _binary(operator: str, first: Value, second: Value) -> Value:
    """An operator on two numbers."""
    computed: dict[str, Callable[[int, int], int]] = {
        "+": lambda a, b: fitting(a + b),
        "-": lambda a, b: fitting(a - b),
        "*": lambda a, b: fitting(a * b),
        "/": _quotient,
        "%": lambda a, b: a - _quotient(a, b) * b,
    }
    compute = computed[operator]
    return lambda values: compute(first(values), second(values))


def _quotient(dividend: int, divisor: int) -> int:
    """A quotient, rounded towards zero."""
    if divisor == 0:
        raise RunFault("zero")
    whole = abs(dividend) // abs(divisor)
    return fitting(whole if (dividend < 0) == (divisor < 0) else -whole)
