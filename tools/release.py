#!/usr/bin/env python3
"""Makes a folder that others can be given: release.py OUT.

The folder is OUT/daig-VERSION-KIND, where KIND is `proved` or `quick`, as the program in it is: the proved one where it is
fresh, else the one compiled without proofs. It has what `./install` puts below a prefix: the program, the commands, the
editors' files, the manual pages and the documents. It runs wherever it stands, and its parts may be copied into a prefix.
SHA256SUMS has the sum of each file, as `sha256sum -c` reads them.
"""
from __future__ import annotations

import hashlib
import os
import shutil
import sys

sys.dont_write_bytecode = True

import install
from check_documents import project_version
from progress import say

SUMS = "SHA256SUMS"


def files_below(folder: str) -> list[str]:
    """The files below a folder, by their paths from there."""
    found = (os.path.relpath(f"{at}/{name}", folder) for at, _, names in os.walk(folder) for name in names)
    return sorted(found)


def sum_of(path: str) -> str:
    with open(path, "rb") as file:
        return hashlib.sha256(file.read()).hexdigest()


def write_sums(folder: str) -> int:
    """Writes the sums of all files, and returns how many these are."""
    lines = [f"{sum_of(f'{folder}/{it}')}  {it}\n" for it in files_below(folder)]
    with open(f"{folder}/{SUMS}", "w") as out:
        out.writelines(lines)
    return len(lines)


def release(out: str) -> int:
    program, words = install.built_program()
    if not program:
        return 1
    kind = "proved" if words == install.PROVED else "quick"
    folder = f"{out}/daig-{project_version()}-{kind}"
    if os.path.lexists(folder):
        say(f"{folder} is there already")
        return 1
    # It has its name when it is whole.
    made = f"{folder}.new"
    shutil.rmtree(made, ignore_errors=True)
    install.put_all(install.Installation(made), program)
    many = write_sums(made)
    os.rename(made, folder)
    print(f"{folder}: {many} files, {words}")
    return 0


def main(words: list[str]) -> int:
    if len(words) != 1 or words[0].startswith("-"):
        say("usage: tools/release.py OUT")
        return 2
    try:
        return release(os.path.abspath(words[0]))
    except OSError as fault:
        say(f"not made: {fault}")
        return 1


if __name__ == "__main__":
    sys.exit(main(sys.argv[1:]))
