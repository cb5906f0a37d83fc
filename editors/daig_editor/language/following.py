"""Follows a run of a program in this process, for what a server does not say of it: its way, and its values at the end.

Nothing is proved of this: what is told by it is a run that a server knows, with the same end.
"""
from __future__ import annotations

import re
from collections import deque
from typing import Any, Callable, NamedTuple

from daig_editor.language.expressions import Cell, RunFault, Value, Values, arguments, condition, expression, fitting
from daig_editor.language.tree import Proc, Program, Span, Stmt, StmtKind

LONGEST_ARRAY = 1_000_000
# So many statements are done at most; of so many last ones the way is known.
MOST_STEPS, MOST_KNOWN = 30_000, 100
ELEMENTS_OF_A_STEP = 500
_CALL = re.compile(r"(?:(\w+) = )?call (\w+)(\(.*\));")
_WRITE = re.compile(r"(\w+)\[(.*)\] = (.*);")
_SET = re.compile(r"(\w+) = (.*);")
_FIELD = re.compile(r"(\w+)\.(next|item) = (.*);")


class Step(NamedTuple):
    """A statement that a run has done or ends at: its number, and the value that it set, in words."""

    number: int
    words: str


class Followed(NamedTuple):
    """A run that ends by a fault: at which statement, its calls there, the outermost first, its last steps, and the values
    of the variables there, in words."""

    number: int
    fault: str
    calls: tuple[int, ...]
    steps: tuple[Step, ...]
    values: tuple[str, ...]


class _Stopped(Exception):
    """A run that ends by no fault, or that is followed no further."""


def followed(program: Program, inputs: tuple[int, ...]) -> Followed | None:
    """A run with these inputs, where it ends by a fault."""
    run = _Run(program, inputs)
    try:
        run.call(program.procs[-1], [])
    except RunFault as fault:
        calls = tuple(it.number for it in run.calls)
        return Followed(run.here.number, str(fault), calls, tuple(run.steps), _told(run.values))
    except (_Stopped, RecursionError):
        pass
    return None


class _Run:
    """A run, as far as it has come."""

    def __init__(self, program: Program, inputs: tuple[int, ...]) -> None:
        self._procs = {it.name: it for it in program.procs}
        self._inputs = deque(inputs)
        self._read: dict[int, Callable[[], None]] = {}
        self._conditions: dict[int, Value] = {}
        self._left = MOST_STEPS
        self.values: Values = {}
        self.calls: list[Stmt] = []
        self.here = Stmt(StmtKind.SIMPLE, "", Span(0, 0), Span(0, 0))
        self.steps: deque[Step] = deque(maxlen=MOST_KNOWN)

    def call(self, proc: Proc, given: list[Any]) -> Any:
        """Does a procedure; answers its result."""
        outer = self.values
        values = {it.name: _first_value(it.kind) for it in proc.variables()}
        values.update(zip((it.name for it in proc.params), given))
        self.values = values
        self._block(proc.body)
        self.values = outer
        return values[proc.result.name] if proc.result else None

    def _block(self, block: list[Stmt]) -> bool:
        """Does some statements; answers whether they end by a break."""
        return any(self._statement(it) for it in block)

    def _statement(self, stmt: Stmt) -> bool:
        """Does a statement; answers whether it ends by a break."""
        if stmt.kind is StmtKind.IF:
            return self._block(stmt.then if self._holds(stmt) else stmt.other)
        if stmt.kind is StmtKind.WHILE:
            while self._holds(stmt) and not self._block(stmt.then):
                pass
            return False
        self._enter(stmt)
        if stmt.text == "break;":
            return True
        self._simple(stmt)
        return False

    def _enter(self, stmt: Stmt) -> None:
        """A statement, or a test of its condition, begins."""
        self.here = stmt
        self.steps.append(Step(stmt.number, ""))
        self._left -= 1
        if self._left < 0:
            raise _Stopped

    def _holds(self, stmt: Stmt) -> bool:
        """Whether the condition of an `if` or a loop holds."""
        self._enter(stmt)
        found = self._conditions.get(stmt.number)
        if found is None:
            found = self._conditions[stmt.number] = condition(stmt.text)
        return bool(found(self.values))

    def _simple(self, stmt: Stmt) -> None:
        """Does a simple statement."""
        done = self._read.get(stmt.number)
        if done is None:
            done = self._read[stmt.number] = self._meaning(stmt)
        done()

    def _meaning(self, stmt: Stmt) -> Callable[[], None]:
        """What a simple statement does."""
        text = stmt.text
        if text == "skip;":
            return lambda: None
        if text.startswith("assert "):
            return self._asserted(condition(text[len("assert ") : -1]))
        if call := _CALL.fullmatch(text):
            return self._called(stmt, call[1], self._procs[call[2]], arguments(call[3]))
        if write := _WRITE.fullmatch(text):
            return self._written(write[1], expression(write[2]), expression(write[3]))
        if into := _FIELD.fullmatch(text):
            return self._linked(into[1], into[2], expression(into[3]))
        assigned = _SET.fullmatch(text)
        assert assigned is not None
        return self._set(assigned[1], self._right(assigned[2]))

    def _asserted(self, claim: Value) -> Callable[[], None]:
        """An assertion."""

        def done() -> None:
            if not claim(self.values):
                raise RunFault("assert")

        return done

    def _called(self, stmt: Stmt, name: str | None, proc: Proc, given: list[Value]) -> Callable[[], None]:
        """A call, whose result may go to a variable."""

        def done() -> None:
            values = [self._copied(it(self.values)) for it in given]
            self.calls.append(stmt)
            result = self.call(proc, values)
            self.calls.pop()
            self.steps.append(Step(stmt.number, ""))
            if name:
                self._put(name, result)

        return done

    def _written(self, name: str, index: Value, value: Value) -> Callable[[], None]:
        """An element of an array is written."""

        def done() -> None:
            at, what, array = index(self.values), value(self.values), self.values[name]
            if not 0 <= at < len(array):
                raise RunFault("index")
            array[at] = what
            self._say(f"{name}[{at}] = {what}")

        return done

    def _linked(self, name: str, field: str, value: Value) -> Callable[[], None]:
        """A field of a cell is written."""

        def done() -> None:
            what, cell = value(self.values), self.values[name]
            if cell is None:
                raise RunFault("null")
            setattr(cell, field, what)

        return done

    def _set(self, name: str, value: Value) -> Callable[[], None]:
        """A variable is set."""
        return lambda: self._put(name, self._copied(value(self.values)))

    def _put(self, name: str, value: Any) -> None:
        """Sets a variable, and says so."""
        self.values[name] = value
        self._say(_words(name, value))

    def _say(self, words: str) -> None:
        """The present step sets a value."""
        self.steps[-1] = Step(self.steps[-1].number, words)

    def _right(self, text: str) -> Value:
        """What stands on the right side of an assignment."""
        if text == "input":
            return lambda values: self._input()
        if text == "new":
            return lambda values: Cell()
        if text.startswith("array "):
            length = expression(text[len("array ") :])
            return lambda values: self._new_array(length(values))
        if text.endswith((".next", ".item")):
            name, _, field = text.partition(".")
            return lambda values: _field(values[name], field)
        if text.endswith("]"):
            name, _, inner = text[:-1].partition("[")
            index = expression(inner)
            return lambda values: _element(index(values), values[name])
        return expression(text)

    def _copied(self, value: Any) -> Any:
        """A value as it is assigned or passed: arrays are copied, which counts as steps."""
        if not isinstance(value, list):
            return value
        self._left -= len(value) // ELEMENTS_OF_A_STEP
        return list(value)

    def _new_array(self, length: int) -> list[int]:
        """An array of zeros, which counts as steps too."""
        if not 0 <= length <= LONGEST_ARRAY:
            raise RunFault("length")
        self._left -= length // ELEMENTS_OF_A_STEP
        return [0] * length

    def _input(self) -> int:
        """The next input."""
        if not self._inputs:
            raise _Stopped
        return fitting(self._inputs.popleft())


def _first_value(kind: str) -> Any:
    """What a variable is at first."""
    return [] if kind == "array" else 0 if kind == "int" else None


def _element(index: int, array: list[int]) -> int:
    """An element of an array."""
    if not 0 <= index < len(array):
        raise RunFault("index")
    return array[index]


def _field(cell: Cell | None, name: str) -> Any:
    """A field of a cell."""
    if cell is None:
        raise RunFault("null")
    return getattr(cell, name)


def _told(values: Values) -> tuple[str, ...]:
    """The values of variables in words."""
    return tuple(_words(name, value) for name, value in values.items())


def _words(name: str, value: Any) -> str:
    """The value of a variable in words."""
    if isinstance(value, list):
        return f"len {name} = {len(value)}"
    if isinstance(value, Cell):
        return f"{name} is a cell of item {value.item}"
    return f"{name} = {'null' if value is None else value}"
