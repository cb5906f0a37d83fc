#!/usr/bin/env python3
"""Puts the commands where the user's shell finds them: install.py [--remove] [PREFIX].

PREFIX is ~/.local where it is not said. What is put there needs the repository no longer: the program that is built
(the proved one where it is fresh, else the quick one, which is built where it is not there), the editor's language
server, the command that checks files where the repository has it, and their manual pages. The program stands in
PREFIX/lib/daig; `daig` of PREFIX/bin answers `--help` and `--version` as the launcher does, and starts it. A list of the
files stands in PREFIX/lib/daig/installed; `--remove` takes away what it lists, and nothing else.
"""
from __future__ import annotations

import os
import shlex
import shutil
import subprocess
import sys
from typing import Callable

sys.dont_write_bytecode = True

import places
from kit import ROOT
from progress import say

LIST = "lib/daig/installed"
PROVED = "the proved program"

LAUNCHER = """#!/bin/sh
here=$(readlink -f "$0") && prefix=${here%/bin/*} || exit 1
top=$prefix/lib/daig
. "$top/tools/words.sh"

tell_build() {
    cat "$prefix/lib/daig/build"
}

answer "$@"
exec "$prefix/lib/daig/daig" "$@"
"""
WRAPPER = """#!/bin/sh
here=$(readlink -f "$0") && prefix=${{here%/bin/*}} || exit 2
DAIG_PROGRAM=${{DAIG_PROGRAM:-$prefix/lib/daig/daig}}
export DAIG_PROGRAM
exec python3 "$prefix/lib/daig/{script}" "$@"
"""


class Installation:
    """What is put below a prefix: each file is written apart and then renamed, so a running program stays whole."""

    def __init__(self, prefix: str) -> None:
        self.prefix, self.earlier = prefix, set(listed(prefix))
        self.files: list[str] = []
        os.makedirs(f"{prefix}/{os.path.dirname(LIST)}", exist_ok=True)

    def _place(self, path: str, write: Callable[[str], object], mode: int) -> None:
        full = f"{self.prefix}/{path}"
        if os.path.lexists(full) and path not in (*self.earlier, LIST):
            raise OSError(f"{full} is there already, and was not put there by this command")
        os.makedirs(os.path.dirname(full), exist_ok=True)
        # The list is ahead of the files, so that what is cut off can be removed.
        if path != LIST:
            with open(f"{self.prefix}/{LIST}", "a") as out:
                out.write(f"{path}\n")
        write(f"{full}.new")
        os.chmod(f"{full}.new", mode)
        os.replace(f"{full}.new", full)
        self.files.append(path)

    def copy(self, source: str, path: str, mode: int = 0o644) -> None:
        self._place(path, lambda it: shutil.copyfile(source, it), mode)

    def write(self, text: str, path: str, mode: int = 0o644) -> None:
        def write(to: str) -> None:
            with open(to, "w") as out:
                out.write(text)

        self._place(path, write, mode)

    def copy_editor(self) -> None:
        """The editor's modules, without its tests."""
        for at, folders, names in os.walk(f"{ROOT}/editors"):
            folders[:] = sorted(it for it in folders if it not in ("tests", "__pycache__", "node_modules"))
            for name in sorted(names):
                if name != "test" and not name.startswith(("test_", ".")):
                    source = f"{at}/{name}"
                    self.copy(source, f"lib/daig/{os.path.relpath(source, ROOT)}")

    def command(self, name: str, script: str) -> None:
        self.write(WRAPPER.format(script=script), f"bin/{name}", 0o755)
        self.page(name)

    def page(self, name: str) -> None:
        self.copy(f"{ROOT}/docs/man/{name}.1", f"share/man/man1/{name}.1")

    def finish(self) -> None:
        """Takes away what an earlier installation had and this one has not, and writes the list."""
        for path in self.earlier - set(self.files):
            remove_file(self.prefix, path)
        self.write("".join(f"{it}\n" for it in self.files), LIST)


def listed(prefix: str) -> list[str]:
    """The files of an installation."""
    try:
        with open(f"{prefix}/{LIST}") as text:
            return text.read().splitlines()
    except FileNotFoundError:
        return []


def remove_file(prefix: str, path: str) -> None:
    """Removes a file, and the folders that are empty then."""
    full = os.path.normpath(f"{prefix}/{path}")
    if not full.startswith(f"{prefix}/"):
        raise OSError(f"{prefix}/{LIST} names {path}, which is not below it")
    try:
        os.remove(full)
    except FileNotFoundError:
        return
    folder = os.path.dirname(full)
    while folder.startswith(f"{prefix}/lib/daig"):
        try:
            os.rmdir(folder)
        except OSError:
            return
        folder = os.path.dirname(folder)


def built_program() -> tuple[str, str]:
    """The program to put there, and what is to be said of it."""
    proved = places.fresh_program("proved")
    if proved:
        return proved, PROVED
    made = places.fresh_program("quick")
    if not made:
        subprocess.run([sys.executable, f"{places.TOOLS}/quick_build.py"], stdin=subprocess.DEVNULL)
        made = places.any_fresh_program()
    return made, "the program that was compiled without proofs (after ./prove, install once more)"


def build() -> str:
    """The commit, and what kind of program is built, as the launcher tells them."""
    words = [f"{ROOT}/daig", "--version"]
    told = subprocess.run(words, stdin=subprocess.DEVNULL, stdout=subprocess.PIPE, text=True).stdout
    return told.strip().partition("(")[2].removesuffix(")")


def put_all(put: Installation, program: str) -> list[str]:
    """Puts the program and all that stands beside it, and returns the names of the commands."""
    put.copy(program, "lib/daig/daig", 0o755)
    put.copy(f"{places.TOOLS}/words.sh", "lib/daig/tools/words.sh")
    put.write(build(), "lib/daig/build")
    put.write(LAUNCHER, "bin/daig", 0o755)
    put.page("daig")
    put.copy_editor()
    for name in ("README.md", "CHANGELOG.md"):
        put.copy(f"{ROOT}/{name}", f"lib/daig/{name}")
    for name in sorted(os.listdir(f"{ROOT}/docs")):
        if name.endswith((".md", ".png", ".svg", ".json")):
            put.copy(f"{ROOT}/docs/{name}", f"lib/daig/docs/{name}")
    put.command("daig-lsp", "editors/daig_lsp.py")
    commands = ["daig", "daig-lsp"]
    if os.path.isfile(f"{ROOT}/daig-check"):
        put.copy(f"{ROOT}/daig-check", "lib/daig/daig-check")
        put.command("daig-check", "daig-check")
        commands.append("daig-check")
    put.finish()
    return commands


def install(prefix: str) -> int:
    program, words = built_program()
    if not program:
        return 1
    commands = put_all(Installation(prefix), program)
    print(f"{', '.join(commands)} stand in {prefix}/bin: {words}")
    if f"{prefix}/bin" not in os.environ.get("PATH", "").split(os.pathsep):
        print(f"{prefix}/bin is not on the PATH: add it, as by export PATH={shlex.quote(prefix)}/bin:$PATH")
    return 0


def remove(prefix: str) -> int:
    files = listed(prefix)
    if not files:
        say(f"nothing is installed below {prefix}")
        return 1
    for path in [*files, LIST]:
        remove_file(prefix, path)
    print(f"removed from {prefix}: {len(set(files))} files")
    return 0


def main(words: list[str]) -> int:
    is_removal = "--remove" in words
    rest = [it for it in words if it != "--remove"]
    if len(rest) > 1 or any(it.startswith("-") for it in rest):
        say("usage: install [--remove] [PREFIX]")
        return 2
    prefix = os.path.abspath(rest[0] if rest else os.path.expanduser("~/.local"))
    try:
        return remove(prefix) if is_removal else install(prefix)
    except OSError as fault:
        say(f"not installed: {fault}" if not is_removal else f"not removed: {fault}")
        return 1


if __name__ == "__main__":
    sys.exit(main(sys.argv[1:]))
