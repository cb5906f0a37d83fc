#!/usr/bin/env python3
"""Lists the files that a new part of the language or the protocol changes: change_places.py KIND [PLACE ..].

KIND is `request`, `simple-statement`, `compound-statement` or `domain`. Listed are the files of code, definitions,
proofs, scripts, tests and documents that name one that is there already: the request `cost`, the statements `assert`
and `while`, the octagons. They are those that a new one has to be put beside, or at least to be looked at. Each line has
a place, which is a crate or another folder, and its files; crates come in the order in which they stand on one another.
PLACEs pick lines.
"""
from __future__ import annotations

import os
import re
import sys
from typing import Iterator, NamedTuple

sys.dont_write_bytecode = True

import crate_list
from kit import ROOT


class Kind(NamedTuple):
    """A part that is there already, and how it is named: in code, where a comment names nothing, and elsewhere."""

    model: str
    in_code: re.Pattern[str]
    elsewhere: re.Pattern[str]


KINDS = {
    "request": Kind("the request `cost`", re.compile(r"\bCost\b|\"cost\""), re.compile(r"""["'`]cost["'`]""")),
    "simple-statement": Kind("`assert`", re.compile(r'Assert(?!s|ion)|"assert"'), re.compile(r"""["'`|]assert\b""")),
    "compound-statement": Kind("`while`", re.compile(r'While|"while"'), re.compile(r"""["'`|]while\b|\bWhile\b""")),
    "domain": Kind("the octagons", re.compile(r"[Oo]ctagon"), re.compile(r"\b[Oo]ctagon")),
}
CODE = (".rt", ".antt")
ELSEWHERE = (".py", ".lua", ".vim", ".js", ".json", ".md", ".1", ".txt", ".rows")
COMMENT = re.compile(r"(?m)//.*$|^\s*--.*$")
LEFT_OUT = ("out", "__pycache__", "node_modules", "golden")


def files() -> Iterator[str]:
    """The files that are looked at. This one names all kinds."""
    for folder, folders, names in os.walk(ROOT):
        folders[:] = sorted(it for it in folders if it not in LEFT_OUT and not it.startswith("."))
        for name in sorted(names):
            if name.endswith((*CODE, *ELSEWHERE)) and name != os.path.basename(__file__):
                yield os.path.relpath(f"{folder}/{name}", ROOT)


def is_place(kind: Kind, path: str) -> bool:
    """Whether a file names the part that is there."""
    with open(f"{ROOT}/{path}", encoding="utf-8", errors="replace") as text:
        if path.endswith(CODE):
            return bool(kind.in_code.search(COMMENT.sub("", text.read())))
        return bool(kind.elsewhere.search(text.read()))


def place_of(path: str) -> tuple[str, str]:
    """The crate or folder of a file, and its path from there."""
    at, _, rest = path.removeprefix("crates/").partition("/")
    return (at, rest) if rest else (".", at)


def places(kind: Kind) -> dict[str, list[str]]:
    """The files to change by their places: crates first, each behind those that it stands on."""
    found: dict[str, list[str]] = {it: [] for names in crate_list.LAYERS.values() for it in names.split()}
    for path in files():
        if is_place(kind, path):
            place, rest = place_of(path)
            found.setdefault(place, []).append(rest)
    return {place: paths for place, paths in found.items() if paths}


def main(words: list[str]) -> int:
    if not words or words[0] not in KINDS:
        print(f"usage: change_places.py {'|'.join(KINDS)} [PLACE ..]", file=sys.stderr)
        return 2
    kind, chosen = KINDS[words[0]], words[1:]
    found = {place: paths for place, paths in places(kind).items() if not chosen or place in chosen}
    print(f"{sum(map(len, found.values()))} files name {kind.model}")
    for place, paths in found.items():
        print(f"{place}: {' '.join(paths)}")
    return 0


if __name__ == "__main__":
    sys.exit(main(sys.argv[1:]))
