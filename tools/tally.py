"""Counting what passed and what failed, and naming it."""
from __future__ import annotations

import re
import sys

LAST = re.compile(r"(\d+) passed, (\d+) failed\b.*")


class Tally:
    """How many checks passed, and the names of those that failed."""

    def __init__(self) -> None:
        self.passed = 0
        self.failed: list[str] = []

    def note(self, name: str, fault: str = "") -> None:
        """Counts a check; a fault says what is wrong."""
        if fault:
            self.failed.append(name)
            print(f"FAILED {name}: {fault}", flush=True)
        else:
            self.passed += 1

    def add_last_line(self, name: str, output: str, status: int) -> None:
        """Counts what a command's last line tells, `N passed, M failed`.

        A status that tells of a failure that the line does not, or no such line, counts as one failure."""
        lines = output.strip().splitlines()
        found = LAST.fullmatch(lines[-1].strip()) if lines else None
        passed, failed = (int(found[1]), int(found[2])) if found else (0, 0)
        self.passed += passed
        self.failed += [name] * (failed or int(status != 0 or not found))

    def end(self) -> int:
        """Writes the last line, with what failed above it; returns the status."""
        for name in dict.fromkeys(self.failed):
            print(f"failed: {name}{f' ({self.failed.count(name)})' if self.failed.count(name) > 1 else ''}")
        print(f"{self.passed} passed, {len(self.failed)} failed", flush=True)
        return 1 if self.failed else 0


def shown(text: str | bytes, most: int = 400) -> str:
    """The beginning of a text, on one line."""
    words = repr(text if isinstance(text, str) else text.decode(errors="replace"))
    return words if len(words) <= most else f"{words[:most]}.."


if __name__ == "__main__":
    sys.exit("tally.py is a module")
