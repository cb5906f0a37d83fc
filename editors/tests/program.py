"""The program that the tests ask, and how many random changes they make."""
from __future__ import annotations

import os

from daig_editor.server.choices import found_program


def program() -> str:
    """The environment's DAIG_PROGRAM, else what the editor finds."""
    return found_program() or "daig"


def changes(plain: int = 2000) -> int:
    """How many random changes a comparing test makes."""
    return int(os.environ.get("DAIG_CHANGES", plain))
