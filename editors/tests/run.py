#!/usr/bin/env python3
"""Tests the editor: run.py [CHANGES [NAME ..]].

CHANGES is how many random changes the comparing tests make (2,000 where it is not said); of NAMEs, only tests whose
full name has one of them are run. The last line is `N passed, M failed`; the status is 0 where none failed.
"""
import os
import sys
from pathlib import Path

EDITORS = Path(__file__).resolve().parent.parent
sys.path.insert(0, str(EDITORS.parent / "tools"))

import unit_tests  # noqa: E402


def main(words: list[str]) -> int:
    """Runs the tests; answers the status."""
    if words and words[0].isdigit():
        os.environ["DAIG_CHANGES"] = words.pop(0)
    return unit_tests.run(EDITORS / "tests", EDITORS, words)


if __name__ == "__main__":
    sys.exit(main(sys.argv[1:]))
