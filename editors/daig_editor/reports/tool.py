"""What the tool says of itself: its name, and the rules that its findings have."""
from __future__ import annotations

from daig_editor.language.records import dataclass


NAME = "daig-check"
# The names of the fingerprint in SARIF, of a run's property which says what faults it tells, and of a file's which says
# that no run of it ends with one.
PRINT, FAULTS_PROPERTY, CANNOT_FAIL_PROPERTY = "daig/v1", "daig/faults", "daig/noRunCanFail"


@dataclass(frozen=True)
class Rule:
    """A rule: its name, what a finding of it says in a sentence, what to know of it, how bad a finding mostly is, and how
    often one is right, both in the words of code hosts."""

    name: str
    short: str
    text: str
    level: str = "warning"
    precision: str = "medium"


_RULES = (
    Rule(
        "bounds",
        "The index of an array may be outside of it.",
        "An element of an array is read or written, `x = a[e];` or `a[e] = f;`, and nothing shows that\n"
        "0 <= e && e < len a holds in every run. A run where it does not hold ends there with the fault `index`.\n"
        "What is known there stands in the finding. Often a relation between the index and the length is lost:\n"
        "octagons keep those of the form x - y <= c and x + y <= c. A test before the access,\n"
        "`if (0 <= i && i < len a) {`, helps where the index i is a variable; assign another index to one first.",
    ),
    Rule(
        "null",
        "A list that is followed may be null.",
        "A cell of a list is read or written, `q.next` or `p.item`, and nothing shows that the variable is not null\n"
        "in every run. A run where it is null ends there with the fault `null`. List segments know how lists hang\n"
        "together, by at most 64 graphs at a place; of more `--domain octagon+shapes` may know it, the other domains\n"
        "nothing. A test before it, `if (p != null) {`, helps where it is known.",
    ),
    Rule(
        "assert",
        "An assertion may fail.",
        "Nothing shows that the condition of an `assert` holds in every run. A run where it does not hold ends there\n"
        "with the fault `assert`. What is known there stands in the finding, and the lines that this depends on.",
    ),
    Rule(
        "overflow",
        "A number may pass the limits of 64 bits.",
        "An operator, `+ - * / %` or the sign `-`, has a result from -2^63 to 2^63 - 1, and nothing shows it in every\n"
        "run. A run where it has not ends there with the fault `overflow`. Where no bound of an input is known nearly\n"
        "every sum may, so such a finding is a note, but where it is certain, new with a change, or wanted by\n"
        "`--faults strict`. A test of the operands before it, `if (x < 1000) {`, makes it safe.",
        "note",
        "low",
    ),
    Rule(
        "zero",
        "A number may be divided by zero.",
        "A division or a remainder, `/` or `%`, has a divisor, and nothing shows that it is not 0 in every run. A run\n"
        "where it is 0 ends there with the fault `zero`. Most domains know ranges, from which a 0 in the middle cannot\n"
        "be taken away: a test `if (d > 0) {` helps where `if (d != 0) {` does not.",
    ),
    Rule(
        "length",
        "The length of a new array may be out of range.",
        "An array is made, `a = array e;`, and nothing shows that e is from 0 to 1,000,000 in every run. A run where it\n"
        "is not ends there with the fault `length`. A test of both limits before it helps.",
    ),
    Rule(
        "budget",
        "A loop used up its budget of rounds, so nothing is known after it.",
        "The states at the head of a loop still changed after as many rounds as `--budget` allows. Nothing is known\n"
        "after the loop, so the checks there are counted as not known and told with the loop alone. A larger\n"
        "`--budget`, up to 10,000, settles it; with `--widening thresholds` a loop may need about two rounds for each\n"
        "different number of its procedure and each variable.",
    ),
    Rule(
        "source",
        "The file is no program.",
        "The text has a fault, which the finding names, so nothing is known of the program. The language is told in\n"
        "docs/LANGUAGE.md. The status is 2.",
        "error",
        "very-high",
    ),
    Rule(
        "run",
        "The file could not be checked.",
        "The file could not be read, or the program `daig` is not there, ended, or answered what is no reply.\n"
        "Nothing is known of the file, so it counts as one that may fail everywhere. The status is 2.",
        "error",
        "very-high",
    ),
    Rule(
        "certificate",
        "No certificate holds of the file.",
        "With `--cert FOLDER` a certificate of each file is checked by `daig verify`, and written anew where it does\n"
        "not hold. The finding says why none holds.",
        "warning",
        "very-high",
    ),
    Rule(
        "ignore",
        "A comment ignores nothing, or names no rule.",
        "`// daig: ignore[RULE] reason` leaves out the findings of the rule, or of several with commas between them, that\n"
        "stand on the line of the comment, or on the next line with code where the comment stands alone. One that\n"
        "leaves out nothing is told by a note, one that cannot be read or names no rule by a warning.",
        "warning",
        "very-high",
    ),
    Rule(
        "change",
        "A change makes this different.",
        "With `--against OLD` a note stands where a verdict, or the state at a loop or after a changed statement, is\n"
        "another than before the change. It does not count for the status.",
        "note",
        "very-high",
    ),
)
RULES = {it.name: it for it in _RULES}
# The rules of findings on a statement, which a comment may ignore.
CHECK_RULES = ("bounds", "null", "assert", "overflow", "zero", "length", "budget")
IGNORE_RULE = "ignore"


def explained(name: str) -> str:
    """What to know of a rule, as lines."""
    rule = RULES[name]
    return f"{rule.name}: {rule.short}\n\n{rule.text}\n"
