"""Programs as trees whose parts have their byte ranges in the text, and how the server prints them.

All places are bytes from the start of the text, except the spans of statements: these count from the start of the
outermost statement around, so that a statement that moves as a whole stays as it is. A span has its end after its last
byte.
"""
from __future__ import annotations

from bisect import bisect_right
from enum import Enum
from typing import Iterator, NamedTuple

from daig_editor.language.records import dataclass, field


class Span(NamedTuple):
    """The bytes from `start` up to `end`, which is after the last one."""

    start: int
    end: int

    def holds(self, place: int) -> bool:
        """Whether a cursor at this place touches the span."""
        return self.start <= place <= self.end

    def moved(self, many: int) -> Span:
        """The span so many bytes further on."""
        return Span(self.start + many, self.end + many)


class StmtKind(Enum):
    """The three shapes of a statement."""

    SIMPLE = "simple"
    IF = "if"
    WHILE = "while"


@dataclass(slots=True)
class Stmt:
    """A statement, and its number in the server's program (0 where it has none yet).

    `text` is the statement as the server prints it, or the condition of an `if` or a loop. `head` is the span up to
    the `{` of an `if` or a loop, and the whole span of a simple statement; both spans count from the start of the
    outermost statement around. `key` is equal exactly where the trees are. `checks` and `faults` are how many of these there
    are in it, -1 where they were not counted.
    """

    kind: StmtKind
    text: str
    span: Span
    head: Span
    callee: str | None = None
    then: list[Stmt] = field(default_factory=list)
    other: list[Stmt] = field(default_factory=list)
    key: object = None
    number: int = 0
    checks: int = field(default=-1, compare=False)
    faults: int = field(default=-1, compare=False)

    def within(self) -> Iterator[Stmt]:
        """This statement and all inside it, in the order of the text."""
        yield self
        for block in (self.then, self.other):
            for stmt in block:
                yield from stmt.within()


class Placed(NamedTuple):
    """A statement with the place in the text from which its spans count."""

    stmt: Stmt
    base: int

    @property
    def span(self) -> Span:
        """The statement's place in the text."""
        return self.stmt.span.moved(self.base)

    @property
    def head(self) -> Span:
        """The place of its head in the text."""
        return self.stmt.head.moved(self.base)

    def at(self, place: int) -> Placed:
        """The innermost statement inside it at a place that it holds, of two that touch there the later one."""
        for block in (self.stmt.other, self.stmt.then):
            for inner in reversed(block):
                if inner.span.moved(self.base).holds(place):
                    return Placed(inner, self.base).at(place)
        return self


@dataclass(frozen=True, slots=True)
class Variable:
    """A variable: its name, its kind, and where its name stands."""

    name: str
    kind: str
    span: Span

    @property
    def text(self) -> str:
        """The variable as it is declared."""
        return f"{self.name}: {self.kind}"

    def moved(self, many: int) -> Variable:
        """The variable so many bytes further on."""
        return Variable(self.name, self.kind, self.span.moved(many))


@dataclass(slots=True)
class Proc:
    """A procedure: its head, its local variables, its statements, and where each of these begins."""

    name: str
    name_span: Span
    params: tuple[Variable, ...]
    result: Variable | None
    locals: list[Variable]
    body: list[Stmt]
    starts: list[int]
    span: Span

    @property
    def head(self) -> str:
        """The procedure's head as the server prints it, up to the `{`."""
        params = ", ".join(it.text for it in self.params)
        result = f" -> {self.result.text}" if self.result else ""
        return f"proc {self.name}({params}){result}"

    def variables(self) -> Iterator[Variable]:
        """The parameters, the result, then the local variables."""
        yield from self.params
        if self.result:
            yield self.result
        yield from self.locals

    def statements(self) -> Iterator[Stmt]:
        """All statements, in the order of the text."""
        for stmt in self.body:
            yield from stmt.within()

    def placed(self) -> Iterator[Placed]:
        """All statements with their places."""
        for stmt, base in zip(self.body, self.starts):
            for inner in stmt.within():
                yield Placed(inner, base)

    def at(self, place: int) -> Placed | None:
        """The innermost statement at a place."""
        many = bisect_right(self.starts, place)
        for index in range(many - 1, max(many - 3, -1), -1):
            root = Placed(self.body[index], self.starts[index])
            if root.span.holds(place):
                return root.at(place)
        return None

    def moved(self, many: int) -> Proc:
        """The procedure so many bytes further on."""
        params = tuple(it.moved(many) for it in self.params)
        result = self.result.moved(many) if self.result else None
        variables = [it.moved(many) for it in self.locals]
        starts = [it + many for it in self.starts]
        name_span, span = self.name_span.moved(many), self.span.moved(many)
        return Proc(self.name, name_span, params, result, variables, self.body, starts, span)


@dataclass(slots=True)
class Program:
    """A program as its text has it."""

    procs: list[Proc]

    def statements(self) -> Iterator[Stmt]:
        """All statements, in the order of the text."""
        for proc in self.procs:
            yield from proc.statements()

    def placed(self) -> Iterator[Placed]:
        """All statements with their places."""
        for proc in self.procs:
            yield from proc.placed()

    def find_all(self, numbers: set[int]) -> dict[int, Placed]:
        """The statements of these numbers, as far as there are some."""
        found: dict[int, Placed] = {}
        for proc in self.procs if numbers else []:
            for stmt, base in zip(proc.body, proc.starts):
                if stmt.number in numbers:
                    found[stmt.number] = Placed(stmt, base)
                blocks = [stmt.then, stmt.other] if stmt.then or stmt.other else []
                while blocks:
                    for inner in blocks.pop():
                        if inner.number in numbers:
                            found[inner.number] = Placed(inner, base)
                        if inner.then or inner.other:
                            blocks += (inner.then, inner.other)
        return found

    def proc(self, name: str) -> Proc | None:
        """The procedure of this name."""
        return next((it for it in self.procs if it.name == name), None)

    def at(self, place: int) -> tuple[Proc, Placed | None] | None:
        """The procedure at a place, and the innermost statement there."""
        for proc in self.procs:
            if proc.span.holds(place):
                return proc, proc.at(place)
        return None


def number_from_one(program: Program) -> int:
    """Numbers all statements as the server does when it loads a text; answers the next number."""
    number = 1
    for stmt in program.statements():
        stmt.number = number
        number += 1
    return number


# ---------------------------------------------------------------------------------------------------------------------
# Printing


def program_text(program: Program) -> str:
    """The program as the server's `program` prints it."""
    return "".join(f"{line}\n" for line, _ in _lines(program))


def listing_text(program: Program) -> str:
    """The program with its statement numbers, as the server's `listing` prints it."""
    return "".join(f"{number or '':>7} {line}\n" for line, number in _lines(program))


def proc_text(proc: Proc) -> str:
    """A procedure as the server prints it."""
    return "".join(f"{line}\n" for line, _ in _proc_lines(proc))


def stmts_text(stmts: list[Stmt]) -> str:
    """Statements as the server prints them, without space in front."""
    return "".join(f"{line}\n" for line, _ in _block_lines(stmts, 0))


def _lines(program: Program) -> Iterator[tuple[str, int]]:
    """The lines of a program, each with the number of the statement that begins there."""
    for proc in program.procs:
        yield from _proc_lines(proc)


def _proc_lines(proc: Proc) -> Iterator[tuple[str, int]]:
    """The lines of a procedure."""
    yield f"{proc.head} {{", 0
    for variable in proc.locals:
        yield f"  var {variable.text};", 0
    yield from _block_lines(proc.body, 1)
    yield "}", 0


def _block_lines(block: list[Stmt], nesting: int) -> Iterator[tuple[str, int]]:
    """The lines of a block."""
    space = "  " * nesting
    for stmt in block:
        if stmt.kind is StmtKind.SIMPLE:
            yield space + stmt.text, stmt.number
            continue
        yield f"{space}{stmt.kind.value} ({stmt.text}) {{", stmt.number
        yield from _block_lines(stmt.then, nesting + 1)
        if stmt.other:
            yield f"{space}}} else {{", 0
            yield from _block_lines(stmt.other, nesting + 1)
        yield f"{space}}}", 0
