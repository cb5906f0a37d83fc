"""Lets Neovim itself type, undo, break and mend, where it is there."""
from __future__ import annotations

import os
import shutil
import subprocess
import unittest
from pathlib import Path

from tests.program import program

SCRIPT = Path(__file__).resolve().parent / "test_neovim.lua"


def test_neovim() -> None:
    """The script's checks hold."""
    if shutil.which("nvim") is None:
        raise unittest.SkipTest("Neovim is not there")
    words = ["nvim", "--headless", "--clean", "-c", f"luafile {SCRIPT}"]
    environment = {**os.environ, "DAIG_PROGRAM": program()}
    done = subprocess.run(words, env=environment, capture_output=True, text=True, timeout=300, check=False)
    assert done.returncode == 0, done.stdout + done.stderr
