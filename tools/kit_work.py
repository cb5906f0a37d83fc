"""What the kit's commands below a process are at work on, where the system tells (`/proc`)."""
from __future__ import annotations

import os
from dataclasses import dataclass

# A crate's proof, one of its must-fail edits, its tests, and the look over the sources that comes before any proof.
PROOF, EDITS, TESTS, SOURCES = "proof", "edits", "tests", "sources"
KINDS = (PROOF, EDITS, TESTS)
# Where a check keeps what it proved, for the next one. A check of an edit keeps nothing, or elsewhere.
KEPT = "out/incremental"


@dataclass(frozen=True)
class Work:
    """A command of the kit that is at work on a crate."""

    process: int
    # When the process began, which tells it from an earlier one of that number.
    began: str
    crate: str
    kind: str


def kind_of(words: list[str]) -> tuple[str, str] | None:
    """The crate that a command is at work on, and the kind of work, where it is one that checks or builds a crate."""
    at = words.index("--crate-name") if "--crate-name" in words[:-1] else 0
    verb = words[at - 1] if at else ""
    if verb not in ("build", "check"):
        return None
    if "--only" in words:
        return words[at + 1], SOURCES
    if "--test" in words:
        return words[at + 1], TESTS
    is_edit = verb == "check" and "-o" not in words and KEPT not in words
    return words[at + 1], EDITS if is_edit else PROOF


def at_work(ancestor: int) -> set[Work]:
    """What the commands below a process are at work on. What such a command starts itself is not told."""
    parents: dict[int, int] = {}
    found: dict[int, Work] = {}
    for number in filter(str.isdigit, os.listdir("/proc") if os.path.isdir("/proc/self") else []):
        try:
            with open(f"/proc/{number}/stat") as stat, open(f"/proc/{number}/cmdline", "rb") as line:
                told = stat.read().rpartition(")")[2].split()
                words = line.read().decode(errors="replace").split("\0")
        except OSError:
            continue
        parents[int(number)] = int(told[1])
        kind = kind_of(words)
        if kind:
            found[int(number)] = Work(int(number), told[19], *kind)

    def is_below(process: int) -> bool:
        above = parents[process]
        while above in parents and above != ancestor and above not in found:
            above = parents[above]
        return above == ancestor

    return {it for number, it in found.items() if is_below(number)}
