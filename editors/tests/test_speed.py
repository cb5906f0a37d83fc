"""A key stroke in a long text costs the language server little of its own time, in a good text and in a broken one."""
from __future__ import annotations

import statistics
import time

from tests.measure_typing import loops, measured, plain

# The most processor time of a key stroke, on the machine on which the fixed work takes its time. Another machine, or a
# busy one on which the same work takes more processor time, is as much slower with both.
MOST_OWN, FIXED_WORK = 0.010, 0.009
TRIES = 3


def fixed_work() -> float:
    """The processor time of some fixed work."""
    began = time.thread_time()
    table: dict[tuple[int, str], int] = {}
    for number in range(20_000):
        key = number % 997, str(number)
        table[key] = table.get(key, 0) + number
        if len(table) > 5_000:
            table.clear()
    return time.thread_time() - began


def slowness() -> float:
    """How many times slower this machine is now than the one of the figures, at least 1."""
    return max(1.0, statistics.median(fixed_work() for _ in range(25)) / FIXED_WORK)


def test_typing() -> None:
    """By the median over key strokes at several places, in 5,000 statements; the best of a few tries counts."""
    for name, text in (("choices and loops", plain(5000)), ("loops in loops", loops(5000))):
        tries = []
        for _ in range(TRIES):
            before = slowness()
            good, broken, _ = measured("interval", text, 4)
            slow = (before + slowness()) / 2
            for kind, strokes in (("a program", good), ("none", broken)):
                print(f"test_speed: {name}: {strokes.told(kind)}, on a machine {slow:.1f} times slower")
            tries.append(max(statistics.median(it.own) for it in (good, broken)) / slow)
            if tries[-1] < MOST_OWN:
                break
        assert min(tries) < MOST_OWN, (name, tries)
