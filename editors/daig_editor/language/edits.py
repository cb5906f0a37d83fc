"""Finds the edit requests that lead from one program to another.

A statement of the old program keeps its number where the new one still has it. A place where a simple statement became
another is a `replace`, a changed condition a `guard`; statements that came are an `insert`, ones that went a `delete`.
A new last variable is a `declare`, a new procedure an `add`, one that went a `drop`. What no request says, such as a
declaration that went or a changed parameter, has no plan: the text has to be loaded anew.
"""
from __future__ import annotations

from difflib import SequenceMatcher
from typing import Iterator

from daig_editor.language.records import dataclass
from daig_editor.language.tree import Proc, Program, Stmt, StmtKind, proc_text, stmts_text

# The server keeps so many programs, so a plan of more requests could not be taken back.
MOST_REQUESTS = 64
# A request's text is kept well below the length of a line.
LONGEST_TEXT = 30_000
# So many pairs of statements are compared to line up what changed; beyond it they are paired in order.
MOST_PAIRS = 4_000


@dataclass(frozen=True, slots=True)
class Request:
    """An edit request, and the next statement number after it."""

    fields: dict[str, object]
    next: int


@dataclass(frozen=True, slots=True)
class Plan:
    """Requests in the order in which they are sent, and what numbers the new program's statements have after them.

    `replaced` has, by their old numbers, the new numbers of simple statements that became others.
    """

    requests: list[Request]
    numbers: list[tuple[Stmt, int]]
    replaced: dict[int, int]
    next: int

    def commit(self) -> None:
        """Gives the new program's statements their numbers. Those of the old one, which may be the same, are lost."""
        for stmt, number in self.numbers:
            stmt.number = number


class NoPlan(Exception):
    """Why no requests lead from the old program to the new one."""


def plan(old: Program, new: Program, next_number: int) -> Plan:
    """The requests from the old program to the new one; raises `NoPlan`. Neither program changes."""
    planner = _Planner(next_number)
    planner.programs(old, new)
    return Plan(planner.requests, list(planner.numbers.values()), planner.replaced, planner.next)


def size(stmt: Stmt) -> int:
    """How many statements a statement and all inside it are."""
    return sum(1 for _ in stmt.within())


class _Planner:
    """Gathers requests; `next` is the next unused number."""

    def __init__(self, next_number: int) -> None:
        self.requests: list[Request] = []
        self.numbers: dict[int, tuple[Stmt, int]] = {}
        self.replaced: dict[int, int] = {}
        self.next = next_number

    def send(self, **fields: object) -> None:
        """Adds a request."""
        if len(self.requests) == MOST_REQUESTS:
            raise NoPlan(f"more than {MOST_REQUESTS} places changed")
        self.requests.append(Request(fields, self.next))

    def number(self, stmts: list[Stmt]) -> None:
        """Gives new statements their numbers, in the order of the text."""
        for stmt in stmts:
            for inner in stmt.within():
                self.numbers[id(inner)] = (inner, self.next)
                self.next += 1

    def keep(self, had: Stmt, has: Stmt) -> None:
        """Gives a statement the number of another one."""
        if has is not had:
            self.numbers[id(has)] = (has, had.number)

    def number_of(self, stmt: Stmt) -> int:
        """The number of a statement of the new program."""
        return self.numbers.get(id(stmt), (stmt, stmt.number))[1]

    # Procedures.

    def programs(self, old: Program, new: Program) -> None:
        """New procedures come first and old ones go last, so that each call has its procedure on the way."""
        before = {it.name: it for it in old.procs}
        after = {it.name: it for it in new.procs}
        if len(before) != len(old.procs) or len(after) != len(new.procs):
            raise NoPlan("a procedure is declared twice")
        staying = [it for it in new.procs if it.name in before]
        if [it.name for it in staying] != [it.name for it in old.procs if it.name in after]:
            raise NoPlan("procedures changed their order")
        self.add_procs(new, before)
        for proc in staying:
            self.declare(before[proc.name], proc)
        for proc in staying:
            self.block(before[proc.name].body, proc.body, f"start {proc.name}")
        for gone in reversed(old.procs):
            if gone.name not in after:
                self.send(do="drop", proc=gone.name)

    def add_procs(self, new: Program, before: dict[str, Proc]) -> None:
        """Adds the procedures that the old program lacks, each before the next that it has."""
        for place, proc in enumerate(new.procs):
            if proc.name in before:
                continue
            anchor = next((it.name for it in new.procs[place + 1 :] if it.name in before), None)
            if anchor is None:
                raise NoPlan("a procedure came after the last one")
            self.number(proc.body)
            self.send(do="add", before=anchor, text=_sendable(proc_text(proc)))

    def declare(self, old: Proc, new: Proc) -> None:
        """Declares the variables that came after the old ones."""
        if old.head != new.head:
            raise NoPlan(f"the head of procedure {old.name} changed")
        had, has = [it.text for it in old.locals], [it.text for it in new.locals]
        if has[: len(had)] != had:
            raise NoPlan(f"the declarations of procedure {old.name} changed, and not at their end alone")
        for variable in new.locals[len(had) :]:
            self.send(do="declare", proc=new.name, name=variable.name, kind=variable.kind)

    # Statements.

    def block(self, old: list[Stmt], new: list[Stmt], place: str) -> None:
        """Leads a block to another; `place` is where statements at its start are put."""
        front: Stmt | None = None
        came: list[Stmt] = []
        for had, has in aligned(old, new):
            if had is None:
                came += [has] if has else []
                continue
            if came:
                self.insert(came, front, place)
                front, came = came[-1], []
            if has is None:
                self.send(do="delete", id=had.number)
                continue
            if has is not had:
                self.change(had, has)
            front = has
        self.insert(came, front, place)

    def insert(self, stmts: list[Stmt], front: Stmt | None, place: str) -> None:
        """Inserts statements after another one, or at a place where there is none, in texts that fit a line."""
        for part in _parts(stmts):
            at = f"after {self.number_of(front)}" if front else place
            self.number(part)
            self.send(do="insert", place=at, text=_sendable(stmts_text(part)))
            front = part[-1]

    def change(self, had: Stmt, has: Stmt) -> None:
        """Leads a statement to another of its shape."""
        if had.key == has.key:
            for old, new in zip(had.within(), has.within()):
                self.keep(old, new)
        elif has.kind is StmtKind.SIMPLE:
            self.number([has])
            self.replaced[had.number] = self.number_of(has)
            self.send(do="replace", id=had.number, text=_sendable(has.text))
        else:
            self.keep(had, has)
            if had.text != has.text:
                self.send(do="guard", id=had.number, text=_sendable(has.text))
            first = "then" if has.kind is StmtKind.IF else "body"
            self.block(had.then, has.then, f"{first} {had.number}")
            self.block(had.other, has.other, f"else {had.number}")


def _sendable(text: str) -> str:
    """The text of a request, which must fit a line."""
    if len(text) > LONGEST_TEXT:
        raise NoPlan("a changed part is too long for one line")
    return text


def _parts(stmts: list[Stmt]) -> Iterator[list[Stmt]]:
    """Statements in runs whose texts fit a line."""
    part: list[Stmt] = []
    length = 0
    for stmt in stmts:
        more = len(stmts_text([stmt]))
        if part and length + more > LONGEST_TEXT:
            yield part
            part, length = [], 0
        part.append(stmt)
        length += more
    if part:
        yield part


# ---------------------------------------------------------------------------------------------------------------------
# Lining up two blocks

Pair = tuple[Stmt | None, Stmt | None]


def aligned(old: list[Stmt], new: list[Stmt]) -> list[Pair]:
    """The statements of two blocks side by side: both where one stays or changes, else the one that there is."""
    front, back = _equal_ends(old, new)
    pairs: list[Pair] = list(zip(old[:front], new[:front]))
    pairs += _middle(old[front : len(old) - back], new[front : len(new) - back])
    pairs += zip(old[len(old) - back :], new[len(new) - back :])
    return pairs


def _equal_ends(old: list[Stmt], new: list[Stmt]) -> tuple[int, int]:
    """How many statements are equal at the front of two blocks, and how many of the rest at the back."""
    shorter = min(len(old), len(new))
    front = 0
    while front < shorter and (old[front] is new[front] or old[front].key == new[front].key):
        front += 1
    back = 0
    while back < shorter - front and (old[-1 - back] is new[-1 - back] or old[-1 - back].key == new[-1 - back].key):
        back += 1
    return front, back


def _middle(old: list[Stmt], new: list[Stmt]) -> list[Pair]:
    """Lines up what is left between equal ends."""
    if len(old) * len(new) <= MOST_PAIRS:
        return _cheapest(old, new)
    matcher = SequenceMatcher(None, [it.key for it in old], [it.key for it in new])
    pairs: list[Pair] = []
    at_old = at_new = 0
    for block in matcher.get_matching_blocks():
        pairs += _gap(old[at_old : block.a], new[at_new : block.b])
        at_old, at_new = block.a + block.size, block.b + block.size
        pairs += zip(old[block.a : at_old], new[block.b : at_new])
    return pairs


def _gap(old: list[Stmt], new: list[Stmt]) -> list[Pair]:
    """Lines up two runs without an equal statement."""
    if len(old) * len(new) <= MOST_PAIRS:
        return _cheapest(old, new)
    pairs: list[Pair] = []
    for had, has in zip(old, new):
        pairs += [(had, has)] if had.kind is has.kind else [(had, None), (None, has)]
    common = min(len(old), len(new))
    return pairs + [(it, None) for it in old[common:]] + [(None, it) for it in new[common:]]


def _cheapest(old: list[Stmt], new: list[Stmt]) -> list[Pair]:
    """The way to line up two runs that touches the fewest statements."""
    going, coming = [size(it) for it in old], [size(it) for it in new]
    cost = [[0] * (len(new) + 1) for _ in range(len(old) + 1)]
    for i in range(len(old) - 1, -1, -1):
        cost[i][len(new)] = cost[i + 1][len(new)] + going[i]
    for j in range(len(new) - 1, -1, -1):
        cost[len(old)][j] = cost[len(old)][j + 1] + coming[j]
    for i in range(len(old) - 1, -1, -1):
        for j in range(len(new) - 1, -1, -1):
            alone = min(cost[i + 1][j] + going[i], cost[i][j + 1] + coming[j])
            cost[i][j] = min(alone, cost[i + 1][j + 1] + _distance(old[i], new[j], going[i] + coming[j]))
    return _path(old, new, cost, going, coming)


def _path(
    old: list[Stmt], new: list[Stmt], cost: list[list[int]], going: list[int], coming: list[int]
) -> list[Pair]:
    """Follows the least costs from the front."""
    pairs: list[Pair] = []
    i = j = 0
    while i < len(old) or j < len(new):
        if i < len(old) and j < len(new):
            both = cost[i + 1][j + 1] + _distance(old[i], new[j], going[i] + coming[j])
            if cost[i][j] == both and old[i].kind is new[j].kind:
                pairs.append((old[i], new[j]))
                i, j = i + 1, j + 1
                continue
        if i < len(old) and cost[i][j] == cost[i + 1][j] + going[i]:
            pairs.append((old[i], None))
            i += 1
        else:
            pairs.append((None, new[j]))
            j += 1
    return pairs


def _distance(had: Stmt, has: Stmt, apart: int) -> int:
    """About how many statements change where one becomes the other; `apart` is the cost where none does."""
    if had.key == has.key:
        return 0
    if had.kind is not has.kind:
        return apart
    if had.kind is StmtKind.SIMPLE:
        return 1
    inner = _uncommon(had.then, has.then) + _uncommon(had.other, has.other)
    return min(apart, inner + (had.text != has.text))


def _uncommon(old: list[Stmt], new: list[Stmt]) -> int:
    """How many statements are left of two blocks without their equal ends: those of the longer rest."""
    front, back = _equal_ends(old, new)
    rest_old = sum(size(it) for it in old[front : len(old) - back])
    rest_new = sum(size(it) for it in new[front : len(new) - back])
    return max(rest_old, rest_new)
