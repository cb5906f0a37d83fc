"""What is said of the faults of statements, and which of it is told."""
from __future__ import annotations

from typing import Container, Iterable, NamedTuple

from daig_editor.language.checks import CHECKS


class Verdict(NamedTuple):
    """What is said of a fault at a statement, by the rule that tells it."""

    number: int
    rule: str
    verdict: str


def told(verdicts: Iterable[Verdict], failing: Container[tuple[int, str]] = ()) -> list[Verdict]:
    """The verdicts that are findings; `failing` are the statements and rules of runs that fail.

    A statement that is never reached is one finding, by the rule of its check where it has one.
    """
    found: dict[tuple[int, str], Verdict] = {}
    for it in verdicts:
        fails = (it.number, it.rule) in failing
        if it.verdict == "dead" and not fails:
            if it.rule in CHECKS or (it.number, "") not in found:
                found[it.number, ""] = it
        elif it.verdict != "safe" or fails:
            found[it.number, it.rule] = it
    return list(found.values())
