"""The words of findings."""
from __future__ import annotations

from typing import Callable, Mapping

from daig_editor.checking.asking import Over, State
from daig_editor.language.words import ANYTHING, NO_VARIABLES, fault_words
from daig_editor.reports.shown import plural

DEAD = "never reached"
CALLED_HERE = "in this run called here"
FAILS_ALWAYS = "certain: no run that comes here goes on"
TELLS_NOTHING = (NO_VARIABLES, ANYTHING)


def verdict_words(rule: str, verdict: str) -> str:
    """A verdict in words."""
    if verdict == "safe":
        return verdict
    return DEAD if verdict == "dead" else fault_words(rule, verdict)


def over_words(budget: int) -> str:
    """What a loop says that used up its budget."""
    return f"the loop did not settle within its budget of {plural(budget, 'round')}, so nothing is known after it"


def over_notes(unknown: Mapping[Over, int], line: Callable[[int], int]) -> tuple[str, ...]:
    """What to know of such a loop: from where it is called, how many checks are not known for it, what to do."""
    calls = [", then ".join(f"line {line(it)}" for it in over.chain) for over in unknown if over.chain]
    notes = [f"called from {it}" for it in calls]
    many = sum(unknown.values())
    if many:
        notes.append(f"{plural(many, 'check')} after it {'is' if many == 1 else 'are'} not known")
    return (*notes, "a larger budget may settle it: --budget N, up to 10,000")


def state_words(state: State) -> str:
    """A state in one line."""
    return "not known: a loop used up its budget" if isinstance(state, Over) else "; ".join(state)


def told_states(state: State) -> tuple[str, ...]:
    """The lines of a state that tell something."""
    return () if isinstance(state, Over) else tuple(it for it in state if it not in TELLS_NOTHING)
