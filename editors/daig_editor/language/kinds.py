"""Which variables a statement uses, of which kinds it wants them, and what is wrong with that."""
from __future__ import annotations

from typing import NamedTuple

from daig_editor.language.outline import Outline, ProcOutline
from daig_editor.language.pieces import PieceReader
from daig_editor.language.tokens import Fault, Token
from daig_editor.language.tree import Span

ONE_OF = {"int": "an int", "array": "an array", "list": "a list", "null": "null", "": "a variable"}


class Mistake(NamedTuple):
    """What is wrong, and where."""

    span: Span
    words: str


class _Side(NamedTuple):
    """An argument or a side of a comparison: its place, and the name that it is alone, `null`, or nothing."""

    span: Span
    alone: str


class KindReader(PieceReader):
    """Reads a statement, and gathers the uses of its variables, its comparisons and its call."""

    def __init__(self, piece: bytes) -> None:
        super().__init__(piece)
        self.uses: list[tuple[Token, str]] = []
        self.sides: list[_Side] = []
        self.compared: list[tuple[_Side, _Side, str]] = []
        self.call: tuple[Token, list[_Side]] | None = None
        self.target: Token | None = None
        self.assigned: _Side | None = None

    def use(self, token: Token, kind: str) -> None:
        """Keeps the use."""
        self.uses.append((token, kind))

    def side(self) -> str:
        """A side; a name that stands alone may be of any kind."""
        began, uses = self.at, len(self.uses)
        text = super().side()
        self.sides.append(self._side(began, uses))
        return text

    def _side(self, began: int, uses: int) -> _Side:
        """The side that was just read."""
        first, last = self.tokens[began], self.tokens[self.at - 1]
        span = Span(first.span.start, last.span.end)
        if self.at - began == 1 and (first.is_name() or first.word == "null"):
            del self.uses[uses:]
            return _Side(span, first.word)
        return _Side(span, "")

    def unit(self) -> tuple[str, int]:
        """A comparison keeps its two sides."""
        many = len(self.sides)
        told = super().unit()
        if len(self.sides) == many + 2:
            mark = next((it for it in ("==", "!=") if f" {it} " in told[0]), "<")
            self.compared.append((self.sides[many], self.sides[many + 1], mark))
        return told

    def invoke(self) -> tuple[str, str]:
        """A call keeps its arguments."""
        name, many = self.token(1), len(self.sides)
        told = super().invoke()
        self.call = (name, self.sides[many:])
        return told

    def right_side(self, target: Token) -> tuple[str, str | None]:
        """What is assigned may be a name of any kind."""
        self.target = target
        began, uses, words = self.at, len(self.uses), ("input", "null", "new", "array", "call")
        alone = self.is_name() and self.peek(1) == ";"
        told = super().right_side(target)
        if alone:
            self.assigned = self._side(began, uses)
        elif self.tokens[began].word not in words and not self._is_read(began):
            self.use(target, "int")
        return told

    def _is_read(self, began: int) -> bool:
        """Whether an element or a part of a cell is assigned."""
        return self.tokens[began].is_name() and self.tokens[began + 1].word in (".", "[")


def kind_mistakes(statement: bytes, offset: int, proc: ProcOutline, outline: Outline) -> list[Mistake]:
    """What is wrong with the kinds and the arguments of a statement, or a head, that begins at a place of the text."""
    reader = KindReader(statement)
    try:
        reader.piece()
    except Fault:
        return []
    kinds = {name: it.variable.kind for name, it in proc.named.items()}
    found = [*_uses(reader, kinds), *_assigned(reader, kinds), *_compared(reader, kinds)]
    found += _arguments(reader, kinds, outline)
    return sorted(Mistake(it.span.moved(offset), it.words) for it in found)


def _uses(reader: KindReader, kinds: dict[str, str]) -> list[Mistake]:
    """Variables of another kind than is wanted where they stand."""
    found = []
    for token, wanted in reader.uses:
        kind = kinds.get(token.word, wanted)
        if kind != wanted:
            found.append(Mistake(token.span, f"`{token.word}` is {ONE_OF[kind]}, {ONE_OF[wanted]} is wanted here"))
    return found


def _kind_of(side: _Side, kinds: dict[str, str]) -> str:
    """The kind of a side."""
    if side.alone == "null":
        return "null"
    return kinds.get(side.alone, "int") if side.alone else "int"


def _assigned(reader: KindReader, kinds: dict[str, str]) -> list[Mistake]:
    """A variable that is assigned to one of another kind."""
    target, side = reader.target, reader.assigned
    if target is None or side is None:
        return []
    has, wanted = kinds.get(side.alone, ""), kinds.get(target.word, "")
    if has == wanted or not has or not wanted:
        return []
    return [Mistake(side.span, f"`{target.word}` is {ONE_OF[wanted]}, `{side.alone}` is {ONE_OF[has]}")]


def _compared(reader: KindReader, kinds: dict[str, str]) -> list[Mistake]:
    """Comparisons of two kinds, of arrays, or of lists by their order."""
    found = []
    for left, right, mark in reader.compared:
        has = [_kind_of(left, kinds), _kind_of(right, kinds)]
        links = all(it in ("list", "null") for it in has)
        if has == ["int", "int"] or (links and mark in ("==", "!=")):
            continue
        span = Span(left.span.start, right.span.end)
        if links:
            found.append(Mistake(span, "lists are compared by `==` and `!=` alone"))
        elif "array" in has:
            side = (left, right)[has.index("array")]
            found.append(Mistake(side.span, "an array is not compared; its `len` is an int"))
        else:
            found.append(Mistake(span, f"{ONE_OF[has[0]]} is compared with {ONE_OF[has[1]]}"))
    return found


def _arguments(reader: KindReader, kinds: dict[str, str], outline: Outline) -> list[Mistake]:
    """A call with other arguments, or another result, than its procedure has."""
    if reader.call is None or reader.call[0].word not in outline.called:
        return []
    name, sides = reader.call
    callee = outline.called[name.word]
    params, result = callee.of_role("parameter"), callee.of_role("result")
    shown = f"{name.word}{callee.signature}"
    if len(params) != len(sides):
        wanted = f"{len(params)} argument{'' if len(params) == 1 else 's'}"
        return [Mistake(name.span, f"`{shown}` takes {wanted}, not {len(sides)}")]
    if reader.target and not result:
        return [Mistake(name.span, f"`{shown}` has no result that could be assigned")]
    found = []
    for number, (side, param) in enumerate(zip(sides, params), 1):
        has = _kind_of(side, kinds)
        if has != param.kind and not (has == "null" and param.kind == "list"):
            found.append(Mistake(side.span, f"argument {number} of `{shown}` is {ONE_OF[has]}"))
    if reader.target and kinds.get(reader.target.word, result[0].kind) != result[0].kind:
        kind = kinds[reader.target.word]
        words = f"`{reader.target.word}` is {ONE_OF[kind]}, the result of `{shown}` is {ONE_OF[result[0].kind]}"
        found.append(Mistake(reader.target.span, words))
    return found
