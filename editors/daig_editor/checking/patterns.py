"""Patterns of paths, as of ruff: a pattern without a slash is of a name at any depth, another one of a whole path."""
from __future__ import annotations

import os
from fnmatch import fnmatchcase
from typing import NamedTuple


class Patterns(NamedTuple):
    """Patterns of paths below a folder. `*` stands for any bytes, `?` for one, `[..]` for one of some."""

    folder: str
    patterns: tuple[str, ...]

    def match(self, path: str) -> bool:
        """Whether a path below the folder, or a folder that it is in, is one of these."""
        if not self.patterns:
            return False
        parts = os.path.relpath(path, self.folder).split(os.sep)
        whole = ["/".join(parts[: many + 1]) for many in range(len(parts))]
        return any(_matches(parts, whole, it.strip("/").removeprefix("./")) for it in self.patterns)


def _matches(parts: list[str], whole: list[str], pattern: str) -> bool:
    """Whether one of some names, or of the paths up to them, is of a pattern."""
    return any(fnmatchcase(it, pattern) for it in (whole if "/" in pattern else parts))
