"""What a server can be started with and asked, and which program it is where none is named."""
from __future__ import annotations

import os
from enum import Enum

DOMAINS = (
    "interval",
    "octagon",
    "listseg",
    "shapes",
    "interval+listseg",
    "octagon+listseg",
    "interval+shapes",
    "octagon+shapes",
)
# Those whose states can be written as certificates.
CERTIFIED = DOMAINS[:3]
WIDENINGS = ("plain", "thresholds")
DOMAIN = "octagon+listseg"


class Faults(Enum):
    """Which faults are told: all; all, where a number that may pass its limits is a warning as well; or those of checks."""

    ALL = "all"
    STRICT = "strict"
    CHECKS = "checks"


FAULTS = tuple(it.value for it in Faults)
# The checkout, or the folder of an installation.
TOP = os.path.dirname(os.path.dirname(os.path.dirname(os.path.dirname(os.path.realpath(__file__)))))


def found_program() -> str | None:
    """The program where nothing names it: the environment's, else the repository's, else as the shell finds it."""
    named = os.environ.get("DAIG_PROGRAM")
    if named:
        return named
    beside = os.path.join(TOP, "daig")
    if os.path.isfile(beside) and os.access(beside, os.X_OK):
        return beside
    import shutil  # its load takes longer than the search

    return shutil.which("daig")
