"""Says in words what the server says: states, verdicts, refusals."""
from __future__ import annotations

import re
from typing import Sequence

from daig_editor.language.records import dataclass

LONGEST_ARRAY = "1000000"
NEVER, NO_VARIABLES, ANYTHING = "never reached", "no variables", "anything"

REFUSALS = {
    "BadByte": "no token begins with this byte",
    "NumberTooBig": "the number is above 9,223,372,036,854,775,807",
    "NameTooLong": "the name has more than 32 bytes",
    "Unexpected": "unexpected here",
    "TooDeep": "too deep: blocks nest 32 times, an expression has 32 operators",
    "Redeclared": "the name is declared twice",
    "BreakOutside": "break outside of a loop",
    "UnknownName": "a name here is not declared",
    "CallsLater": "a procedure calls only procedures that stand before it",
    "WrongArguments": "wrong number of arguments, or a result is wanted where there is none",
    "WrongKind": "an int, an array or a list stands where another kind is wanted",
    "NoMain": "the last procedure is not main",
    "MainHasParameters": "main has no parameters and no result",
    "Procedures": "more than 64 procedures",
    "Statements": "more than 10,000 statements",
    "Numbers": "statement numbers are used up",
    "Nesting": "blocks nest more than 32 times",
    "Ints": "more than 16 int and array variables in one procedure",
    "Lists": "more than 8 list variables in one procedure",
    "Depth": "a chain of more than 8 calls",
    "Chains": "more than 4,096 chains of calls",
}
MAY_FAIL = {
    "bounds": "the index may be outside the array",
    "null": "the list may be null",
    "assert": "the assertion may fail",
    "overflow": "a number may pass the limits of 64 bits",
    "zero": "the divisor may be zero",
    "length": "the length of the array may be below 0 or above 1,000,000",
}
FAILS = {
    "bounds": "the index is outside the array",
    "null": "the list is null",
    "assert": "the assertion fails",
    "overflow": "a number passes the limits of 64 bits",
    "zero": "a number is divided by zero",
    "length": "the length of the array is below 0 or above 1,000,000",
}


def refusal_words(name: str) -> str:
    """What a refusal's name means, with the name."""
    return f"{REFUSALS.get(name, 'refused')} ({name})"


def fault_words(rule: str, verdict: str, inputs: Sequence[int] | None = None, alone: bool = True) -> str:
    """What is said of a fault: that it may come, that it comes in a run with these inputs, or that it comes in every run
    that comes here; unless it is `alone`, another fault of the same statement may come before it."""
    if inputs is None and verdict != "fails":
        return MAY_FAIL.get(rule, f"a run may end by the fault {rule}")
    words = FAILS.get(rule, f"a run ends by the fault {rule}")
    if inputs is not None:
        return f"{words} {inputs_words(inputs)}"
    return f"{words}{'' if alone else ', or another fault comes first,'} in every run that comes here"


def finding_words(
    rule: str, verdict: str, inputs: Sequence[int] | None = None, ends: bool = False, alone: bool = True
) -> str:
    """What an editor says of a verdict, with its rule; `ends`: no run goes on after the statement."""
    if verdict == "dead":
        return f"{NEVER} ({rule})"
    is_said = inputs is None and verdict == "fails"
    more = "; no run that comes here goes on" if ends and not is_said else ""
    return f"{fault_words(rule, verdict, inputs, alone)}{more} ({rule})"


def inputs_words(inputs: Sequence[int]) -> str:
    """The inputs of a run; of many equal ones how many."""
    if not inputs:
        return "in each run"
    if len(inputs) > 3 and len(set(inputs)) == 1:
        return f"with inputs {inputs[0]}, {len(inputs)} times"
    return f"with input{'s' if len(inputs) > 1 else ''} {', '.join(map(str, inputs))}"


def over_words(line: int, budget: int, calls: list[int], unknown: int = 0) -> str:
    """What a loop that used up its budget means, and what to do; `unknown` is how many checks are not known for it."""
    where = f", called from line {', '.join(map(str, calls))}" if calls else ""
    checks = f": {unknown} check{'s' if unknown > 1 else ''} there may fail or not" if unknown else ""
    return (
        f"The loop at line {line}{where} did not settle within its budget of {budget} rounds, so nothing is known "
        f"after it{checks}. A larger budget may settle it: "
        "the setting `budget` (`daig serve --budget N`, up to 10,000)."
    )


def state_lines(text: str) -> list[str]:
    """A state of any domain as lines that a person reads: of a product, one for each part that says something."""
    parts = text.split(" & ")
    if "none" in parts:
        return [NEVER]
    told = [_part(it) for it in parts]
    return [it for it in told if it not in (NO_VARIABLES, ANYTHING)] or [told[0]]


def is_never(text: str) -> bool:
    """Whether a state describes no run at all."""
    return "none" in text.split(" & ")


def _part(text: str) -> str:
    """One part of a state."""
    plain = {"any": NO_VARIABLES, "top": "lists: anything"}
    if text in plain:
        return plain[text]
    if re.match(r"\w+=(nil|\d)", text):
        return " or ".join(_graph(it) for it in text.split(" | "))
    return _numbers(text)


# ---------------------------------------------------------------------------------------------------------------------
# Numbers. `#a` is the length of the array a.


def _numbers(text: str) -> str:
    """Ranges and the bounds between two variables."""
    words = text.split(" ")
    ranges = [it for it in map(_range, (it for it in words if "=[" in it)) if it]
    told = ranges + _relations([it for it in words if "=[" not in it])
    return ", ".join(told) if told else ANYTHING


def _shown(name: str) -> str:
    """A name as a person reads it."""
    return f"len {name[1:]}" if name.startswith("#") else name


def _range(word: str) -> str:
    """A variable's range; nothing where all is possible."""
    name, _, rest = word.partition("=[")
    low, high = rest.rstrip("]").split(",")
    is_length, shown = name.startswith("#"), _shown(name)
    if low == high:
        return f"{shown} = {low}"
    if (low, high) == (("0", LONGEST_ARRAY) if is_length else ("min", "max")):
        return ""
    if high == "max" or (is_length and high == LONGEST_ARRAY):
        return f"{shown} ≥ {low}"
    if low == "min":
        return f"{shown} ≤ {high}"
    return f"{low} ≤ {shown} ≤ {high}"


@dataclass(frozen=True)
class _Bound:
    """`first - second <= most`, or a sum where `sum` is 1 or -1: `sum * (first + second) <= most`."""

    first: str
    second: str
    sum: int
    most: int


_BOUND = re.compile(r"^(-?)(#?\w+)([-+])(#?\w+)<=(-?\d+)$")


def _relations(words: list[str]) -> list[str]:
    """The bounds between two variables, a pair of opposite ones as an equation."""
    bounds = [it for it in map(_bound, words) if it]
    known = {(it.first, it.second, it.sum): it.most for it in bounds}
    told = []
    for it in bounds:
        opposite = (it.second, it.first, 0) if it.sum == 0 else (it.first, it.second, -it.sum)
        equal = known.get(opposite) == -it.most
        if equal and (_shown(it.first), it.sum) > (_shown(opposite[0]), opposite[2]):
            continue
        told.append(_relation(it, "=" if equal else "≤"))
    return told


def _bound(word: str) -> _Bound | None:
    """A bound between two variables."""
    match = _BOUND.match(word)
    if not match:
        return None
    sign, first, mark, second, most = match.groups()
    if sign:
        return _Bound(first, second, -1, int(most))
    return _Bound(first, second, 1 if mark == "+" else 0, int(most))


def _relation(bound: _Bound, mark: str) -> str:
    """A bound as a person reads it."""
    first, second, most = _shown(bound.first), _shown(bound.second), bound.most
    if bound.sum == 1:
        return f"{first} + {second} {mark} {most}"
    if bound.sum == -1:
        return f"{first} + {second} {'=' if mark == '=' else '≥'} {-most}"
    if most == 0:
        return f"{first} {mark} {second}"
    if mark == "≤" and most == -1:
        return f"{first} < {second}"
    return f"{first} {mark} {second} {'+' if most > 0 else '-'} {abs(most)}"


# ---------------------------------------------------------------------------------------------------------------------
# Lists


def _graph(text: str) -> str:
    """One graph of list cells: what each variable points to, then the cells that only others lead to."""
    words = text.split(" ")
    slots = [it.split("=") for it in words if "=" in it]
    atoms = dict(it.split(":") for it in words if ":" in it)
    names: dict[str, list[str]] = {}
    for name, target in slots:
        names.setdefault(target, []).append(name)
    told = [f"{' = '.join(names.pop('nil'))} = null"] if "nil" in names else []
    told += [f"{' = '.join(it)}: {_atom(atoms[node], names)}" for node, it in names.items()]
    told += [f"cell {node}: {_atom(atom, names)}" for node, atom in atoms.items() if node not in names]
    return ", ".join(told) if told else "no lists"


def _atom(atom: str, names: dict[str, list[str]]) -> str:
    """The cells of a node, and what they lead to."""
    kind, target = atom.rstrip(")").split("(")
    cells = "1 cell" if kind == "one" else "1 or more cells"
    if target == "nil":
        return f"{cells} to null"
    return f"{cells} to {names[target][0] if target in names else 'cell ' + target}"
