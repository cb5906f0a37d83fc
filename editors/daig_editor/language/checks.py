"""What can go wrong at statements: their checks, and all faults that can end a run there, by the rules that tell them."""
from __future__ import annotations

import re

from daig_editor.language.tree import Program, Stmt, StmtKind

_CHECKS = (
    ("assert", re.compile(r"assert ")),
    ("bounds", re.compile(r"\w+( = \w+)?\[")),
    ("null", re.compile(r"\w+\.|\w+ = \w+\.")),
)
# The rules of checks, and the rule whose findings weigh less: nearly every sum may pass the limits of 64 bits.
CHECKS = tuple(name for name, _ in _CHECKS)
SLIGHT = "overflow"
_OPERATOR, _DIVISION, _NEW_ARRAY = re.compile(r"[-+*/%]"), re.compile(r"[/%]"), re.compile(r"\w+ = array ")


def rule_of(fault: str) -> str:
    """The rule that tells a fault of a run."""
    return "bounds" if fault == "index" else fault


def fault_of(rule: str) -> str:
    """The fault of a run that a rule tells."""
    return "index" if rule == "bounds" else rule


def evaluated_at(stmt: Stmt) -> str:
    """The location where a statement is evaluated: a loop's condition at its head."""
    return f"{'head' if stmt.kind is StmtKind.WHILE else 'before'} {stmt.number}"


def check_of(stmt: Stmt) -> str | None:
    """The check that a statement has."""
    if stmt.kind is not StmtKind.SIMPLE:
        return None
    return next((name for name, begin in _CHECKS if begin.match(stmt.text)), None)


def rules_of(stmt: Stmt) -> list[str]:
    """The rules of all faults that evaluating a statement, or the condition of an `if` or a loop, can end a run with."""
    found = []
    if _OPERATOR.search(stmt.text):
        found.append("overflow")
        if _DIVISION.search(stmt.text):
            found.append("zero")
    if stmt.kind is StmtKind.SIMPLE and _NEW_ARRAY.match(stmt.text):
        found.append("length")
    check = check_of(stmt)
    return [*found, check] if check else found


def many_checks(program: Program) -> int:
    """How many checks a program has. An outermost statement, which later programs share, is counted once."""
    many = 0
    for proc in program.procs:
        for stmt in proc.body:
            if stmt.checks < 0:
                stmt.checks = sum(check_of(it) is not None for it in stmt.within())
            many += stmt.checks
    return many


def many_faults(program: Program) -> int:
    """How many faults can end its runs, each at its statement; counted as checks are."""
    many = 0
    for proc in program.procs:
        for stmt in proc.body:
            if stmt.faults < 0:
                stmt.faults = sum(len(rules_of(it)) for it in stmt.within())
            many += stmt.faults
    return many
