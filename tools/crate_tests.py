#!/usr/bin/env python3
"""Compiles the tests of a crate without proofs, unless they are there and fresh, and runs them: crate_tests.py CRATE.

The last line is `N passed, M failed`.
"""
from __future__ import annotations

import re
import sys
import tempfile

sys.dont_write_bytecode = True

import kit
import places
import progress
from tally import Tally

SECONDS = "60"


def main(crate: str) -> int:
    tally, children = Tally(), progress.Children(sys.stdout.fileno())
    progress.interruptible()
    try:
        status = children.status_of([sys.executable, f"{places.TOOLS}/quick_build.py", "--tests", crate])
        made = places.fresh_program("quick", crate)
        if status or not made:
            tally.note(f"the build of the tests of {crate}", "there is no program")
            return tally.end()
        with tempfile.TemporaryDirectory(prefix="tests-") as folder:
            words = [f"{kit.Kit.find().folder}/bin/rattle-test", "--seconds", SECONDS, made]
            child = children.start(words, cwd=folder, is_read=True)
            written = child.communicate()[0]
    except progress.Interrupted as asked:
        return asked.status
    finally:
        children.end()
    print(written, end="", flush=True)
    found = re.search(r"^test result: \S+ (\d+) passed; (\d+) failed;", written, re.M)
    tally.add_last_line(f"the tests of {crate}", f"{found[1]} passed, {found[2]} failed" if found else "", child.returncode)
    return tally.end()


if __name__ == "__main__":
    sys.exit(main(sys.argv[1]))
