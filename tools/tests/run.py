#!/usr/bin/env python3
"""Tests the scripts: run.py [NAME ..], those alone whose names have one of these in them. The last line is
`N passed, M failed`."""
import os
import sys
from pathlib import Path

sys.dont_write_bytecode = True
HERE = Path(__file__).resolve().parent
sys.path.insert(0, str(HERE.parent))

import unit_tests  # noqa: E402

if __name__ == "__main__":
    sys.exit(unit_tests.run(HERE, HERE, sys.argv[1:], len(os.sched_getaffinity(0))))
