"""Where built programs stand, and whether they are fresh. `places.sh` tells the same to the shell."""
from __future__ import annotations

import os
import subprocess

from kit import ROOT, ROOT_CRATE

TOOLS = os.path.dirname(os.path.abspath(__file__))


def told(*words: str) -> str:
    """What `places.sh` says of this checkout."""
    words = ("sh", f"{TOOLS}/places.sh", ROOT, *words)
    ran = subprocess.run(words, stdin=subprocess.DEVNULL, stdout=subprocess.PIPE, text=True)
    return ran.stdout.strip() if ran.returncode == 0 else ""


def quick_folder() -> str:
    """The folder of the quick programs: in the checkout, or else in the user's cache."""
    return told("folder")


def fresh_program(kind: str, crate: str = ROOT_CRATE) -> str:
    """The program of the kind, `proved` or `quick`, where it is there and fresh. Of a crate without a program it is that
    of its tests, `quick` alone."""
    return told(kind, crate)


def any_fresh_program() -> str:
    return fresh_program("proved") or fresh_program("quick")
