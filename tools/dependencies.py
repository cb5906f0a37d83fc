#!/usr/bin/env python3
"""Checks that what crates.txt and docs/DECISIONS.md say of dependencies is so: dependencies.py [--print].

Each crate that crates.txt names behind another one is named in its code, definitions or proofs. Each crate of the kit in
the table of docs/DECISIONS.md is used by the files of code that the table links to, which are of the program. `--print`
writes all files of code that use each crate of the kit.
"""
from __future__ import annotations

import os
import re
import sys
from functools import cache
from typing import Iterator

sys.dont_write_bytecode = True

from kit import ROOT, crates_of, listed
from tally import Tally

DOCUMENT = "docs/DECISIONS.md"
COMMENT = re.compile(r"(?m)//.*$|^\s*--.*$")
NAMED = re.compile(r"\bRattle\.(\w+)|\b(\w+)::|\buse (?!Rattle\b)(\w+)")
ROW = re.compile(r"(?m)^\| `(\w+)` \|.*\| (.*) \|$")
LINK = re.compile(r"\]\(\.\./(crates/[^)]+)\)")


def named_in(text: str) -> set[str]:
    """The crates that a file of code, definitions or proofs names, among other names. Comments name none."""
    return {name for found in NAMED.findall(COMMENT.sub("", text)) for name in found if name}


@cache
def files_of(crate: str) -> dict[str, set[str]]:
    """The files of a crate, each with what it names."""
    found = {}
    for part in ("src", "specs", "proofs"):
        for folder, _, names in os.walk(f"{ROOT}/crates/{crate}/{part}"):
            for name in (it for it in names if it.endswith((".rt", ".antt"))):
                with open(f"{folder}/{name}", encoding="utf-8") as text:
                    found[os.path.relpath(f"{folder}/{name}", ROOT)] = named_in(text.read())
    return found


def unused(below: dict[str, list[str]]) -> Iterator[tuple[str, list[str]]]:
    """The crates with dependencies that nothing in them names, and these."""
    for crate, on in below.items():
        names = set().union(*files_of(crate).values())
        left = [it for it in on if it not in names]
        if left:
            yield crate, left


def users_of(library: str) -> list[str]:
    """The files of code that use a crate of the kit: they name it, and crates.txt names it for their crate."""
    code = (f for crate, on in listed().items() if library in on for f in sorted(files_of(crate).items()))
    return [path for path, names in code if "/src/" in path and library in names]


def told_users(text: str) -> dict[str, list[str]]:
    """The files that the table of a document names for each crate of the kit."""
    return {library: LINK.findall(cell) for library, cell in ROW.findall(text) if LINK.search(cell)}


def user_faults(library: str, told: list[str]) -> Iterator[str]:
    """What a table says of the use of a crate, and is not so."""
    found, running = users_of(library), crates_of()
    yield from (f"{it} does not use {library}" for it in told if it not in found)
    yield from (f"{it} is no part of the program" for it in told if it.split("/")[1] not in running)


def faults() -> Iterator[tuple[str, str]]:
    """What is wrong, by the name of what was checked."""
    findings = [f"{crate} names no {' '.join(left)}" for crate, left in unused(listed())]
    yield "each dependency of crates.txt is used", "; ".join(findings)
    with open(f"{ROOT}/{DOCUMENT}", encoding="utf-8") as text:
        told = told_users(text.read())
    yield "the kit's crates are told", "" if told else f"{DOCUMENT} has no table of them"
    for library, paths in told.items():
        yield f"{library} is used as {DOCUMENT} says", "; ".join(user_faults(library, paths))


def main(words: list[str]) -> int:
    if words not in ([], ["--print"]):
        print("usage: dependencies.py [--print]", file=sys.stderr)
        return 2
    if words:
        own = listed()
        for library in sorted({it for on in own.values() for it in on} - own.keys()):
            print(library, *users_of(library), sep="\n    ")
    tally = Tally()
    for name, fault in faults():
        tally.note(name, fault)
    return tally.end()


if __name__ == "__main__":
    sys.exit(main(sys.argv[1:]))
