"""Looks for inputs with which a program fails where the report says that it may.

A few lists of inputs are tried: each of a single number, then mixed ones. The numbers are 0, 1, -1, the limits of the
language, and those of the program with their neighbours.
"""
from __future__ import annotations

from itertools import islice
from typing import Awaitable, Callable, Iterable, Iterator, NamedTuple

from daig_editor.language.checks import rule_of
from daig_editor.language.tokens import GREATEST_NUMBER, tokens

Ask = Callable[..., Awaitable[dict[str, object]]]
LONGEST_INPUTS = 64
FUEL = 20_000
MOST_NUMBERS = 24


def input_lists(text: bytes, many: int) -> Iterator[list[int]]:
    """So many lists of inputs for a program, or the one empty list where it reads none."""
    if b"input" not in text or all(it.word != "input" for it in tokens(text)):
        yield []
        return
    # No more of a long text is cut into tokens than has these numbers.
    numbers = _numbers(islice((int(it.word) for it in tokens(text) if it.kind == "number"), MOST_NUMBERS))
    for number in numbers[:many]:
        yield [number] * LONGEST_INPUTS
    from random import Random

    random = Random(1)
    for _ in range(many - len(numbers)):
        yield [random.choice(numbers) for _ in range(LONGEST_INPUTS)]


def _numbers(found: Iterator[int]) -> list[int]:
    """The numbers that are tried, each once, the likeliest first."""
    wanted = [0, 1, -1]
    for number in found:
        wanted += [number, number + 1, number - 1, -number]
    wanted = wanted[:MOST_NUMBERS] + [2, GREATEST_NUMBER, -GREATEST_NUMBER - 1]
    return [it for it in dict.fromkeys(wanted) if -GREATEST_NUMBER - 1 <= it <= GREATEST_NUMBER]


class Failure(NamedTuple):
    """A run that fails: at which statement, by which fault, and with which inputs, none of which can be left out."""

    number: int
    fault: str
    inputs: tuple[int, ...]

    @property
    def rule(self) -> str:
        """The rule that tells the fault."""
        return rule_of(self.fault)


async def failing_runs(
    ask: Ask, lists: Iterable[list[int]], wanted: Callable[[int, str], bool], fuel: int = FUEL, most: int | None = None
) -> list[Failure]:
    """The first run of some lists of inputs that fails so, for each statement and fault that are wanted.

    `most` is how many there can be, where that is known.
    """
    found: dict[tuple[int, str], Failure] = {}
    for inputs in lists:
        reply = await ask(do="run", inputs=inputs, fuel=fuel)
        number, fault = reply.get("id"), reply.get("fault")
        if not isinstance(number, int) or not isinstance(fault, str) or not wanted(number, fault):
            continue
        if (number, fault) not in found:
            found[number, fault] = Failure(number, fault, await _shortest(ask, inputs, reply, fuel))
            if len(found) == most:
                break
    return list(found.values())


async def _shortest(ask: Ask, inputs: list[int], failed: dict[str, object], fuel: int) -> tuple[int, ...]:
    """The fewest first inputs that lead to the same fault; with fewer a run ends before it because no input is left."""
    low, high = 0, len(inputs)
    while low < high:
        middle = (low + high) // 2
        if await ask(do="run", inputs=inputs[:middle], fuel=fuel) == failed:
            high = middle
        else:
            low = middle + 1
    return tuple(inputs[:high])


async def failing_rules(
    ask: Ask, text: bytes, wanted: set[tuple[int, str]], many: int
) -> dict[tuple[int, str], tuple[int, ...]]:
    """Inputs with which runs fail, by statement and rule, of those that are wanted and that so many lists of inputs show."""
    if not wanted or not many:
        return {}

    def is_wanted(number: int, fault: str) -> bool:
        """Whether a fault is one of those that are wanted."""
        return (number, rule_of(fault)) in wanted

    found = await failing_runs(ask, input_lists(text, many), is_wanted, most=len(wanted))
    return {(it.number, it.rule): it.inputs for it in found}
