"""Where a file really is: its path below the folder of its project, so that a report does not depend on where it is made.

The folder is the nearest one above that has a `.git`, else the nearest that has a `daig.toml`.
"""
from __future__ import annotations

import os
from functools import lru_cache
from typing import NamedTuple

STANDARD_INPUT = "-"
# No file is told by this name: one that is called so is told as `./<stdin>`.
STANDARD_INPUT_NAME = "<stdin>"
CONFIGURATION = "daig.toml"


class ProjectPath(NamedTuple):
    """A file's path, with `/`, below the folder of its project; a whole path where it is in none."""

    project: str
    path: str


def project_path(name: str) -> ProjectPath:
    """Where a file really is, whatever links lead to it."""
    if name == STANDARD_INPUT_NAME:
        return ProjectPath("", "/dev/stdin")
    real = os.path.realpath(name)
    project = _project_of(os.path.dirname(real))
    path = os.path.relpath(real, project) if project else real
    return ProjectPath(project, path.replace(os.sep, "/"))


@lru_cache(maxsize=None)
def _project_of(folder: str) -> str:
    """The folder of the project that a folder is in; nothing where it is in none."""
    above = _above(folder)
    for name in (".git", CONFIGURATION):
        for it in above:
            if os.path.exists(os.path.join(it, name)):
                return it
    return ""


def _above(folder: str) -> list[str]:
    """A folder and all above it, the nearest first."""
    found = [folder]
    while os.path.dirname(found[-1]) != found[-1]:
        found.append(os.path.dirname(found[-1]))
    return found
