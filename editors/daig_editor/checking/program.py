"""The program that is asked: as it is named, else the one of this checkout, else an installed one."""
from __future__ import annotations

import os
from contextlib import suppress

from daig_editor.server.choices import TOP, found_program

BUILT = ("proved", "quick")


class NoProgramFound(Exception):
    """Why there is no program to ask."""


def program_to_ask(named: str | None) -> str:
    """The path of the program; raises `NoProgramFound`."""
    found = named or found_program()
    if found is None:
        raise NoProgramFound("there is no program daig: name it by --program PATH or by DAIG_PROGRAM")
    return launched_program(TOP) if found == os.path.join(TOP, "daig") else found


def launched_program(checkout: str) -> str:
    """The program that a checkout's launcher starts, so that it is looked for once and not for each file."""
    launcher = os.path.join(checkout, "daig")
    if not os.path.isfile(os.path.join(checkout, "tools/places.sh")):
        return launcher
    import subprocess

    built = _built(checkout)
    if built is None:
        # It builds the program, and says on standard error how far it is, before it refuses the empty text.
        with suppress(OSError):
            subprocess.run([launcher, "batch", "/dev/null"], stdin=subprocess.DEVNULL, stdout=subprocess.DEVNULL)
        built = _built(checkout)
    if built is None:
        raise NoProgramFound(f"{launcher} has not built the program")
    return built


def build_words(checkout: str = TOP) -> str:
    """The commit, and what kind of program is built, in brackets; with the program that is asked, if it is another."""
    launcher, found = os.path.join(checkout, "daig"), found_program()
    told = _words_of_file(os.path.join(checkout, "build")) or _words_of_launcher(launcher)
    return told if found in (None, launcher) else f"{told}, asks {found}"


def _words_of_file(build: str) -> str:
    """What an installation tells of its build, in a line; nothing where it is none."""
    if not os.path.isfile(build):
        return ""
    with open(build) as text:
        return f"({text.read()})"


def _words_of_launcher(launcher: str) -> str:
    """What a checkout's launcher tells of its build."""
    import subprocess

    with suppress(OSError):
        words = [launcher, "--version"]
        done = subprocess.run(words, stdin=subprocess.DEVNULL, capture_output=True, text=True)
        if done.returncode == 0 and "(" in done.stdout:
            return done.stdout[done.stdout.index("(") :].strip()
    return "(of no known build)"


def _built(checkout: str) -> str | None:
    """The program that is built and fresh, if one is."""
    import subprocess

    for kind in BUILT:
        words = ["sh", os.path.join(checkout, "tools/places.sh"), checkout, kind]
        with suppress(OSError):
            done = subprocess.run(words, stdin=subprocess.DEVNULL, capture_output=True, text=True)
            if done.returncode == 0 and done.stdout.strip():
                return done.stdout.strip()
    return None
