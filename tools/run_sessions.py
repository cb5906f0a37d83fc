#!/usr/bin/env python3
"""Runs the sessions that the documents show, and compares: run_sessions.py PROGRAM [DOCUMENT ..].

A block that is indented by four spaces and has lines that begin with `$ ` is a session. Each such line is a command of
the shell; below it stands what it writes, or, where a line has two JSON objects with two spaces or more between them,
requests on the left and replies on the right. A command ends with status 0, but where `$ echo $?` comes next, which tells
its status. A block after a paragraph that names a file in backticks and ends in a colon is that file where no line of it
begins with `$ `. Blocks between lines of three backticks are not run here.

All sessions of a document run in one folder, where the document's files are, where `daig` is the program, and where
`./daig`, `crates` and `tools` are those of this repository.
"""
from __future__ import annotations

import os
import re
import subprocess
import sys
import tempfile
from typing import Iterator

sys.dont_write_bytecode = True

from kit import ROOT
from tally import Tally, shown

INDENT = "    "
FILE = re.compile(r"`([\w.-]+)`[^`]*:$")
EXCHANGE = re.compile(r"(\{.*\}) {2,}(\{.*\})")
ASKS_STATUS = "echo $?"
LIMIT = 120


class Command:
    """A command of a session, with what it reads and what it is to write."""

    def __init__(self, words: str, number: int) -> None:
        self.words, self.number, self.status = words, number, 0
        self.lines: list[str] = []

    def fault(self, folder: str, path: str) -> str:
        """What it writes or ends with, where that is not what is told."""
        if self.words == ASKS_STATUS:
            return ""
        script, wanted = self._exchanged()
        words, environment = ["sh", "-c", self.words], {**os.environ, "PATH": path}
        try:
            ran = subprocess.run(
                words, cwd=folder, env=environment, input=script, stdout=subprocess.PIPE, text=True, timeout=LIMIT
            )
        except subprocess.TimeoutExpired:
            return f"did not end within {LIMIT} seconds"
        if ran.returncode != self.status:
            return f"ended with {ran.returncode} in place of {self.status}"
        return "" if ran.stdout == wanted else f"wrote {shown(ran.stdout)} in place of {shown(wanted)}"

    def _exchanged(self) -> tuple[str, str]:
        """What it reads, and what it is to write."""
        exchanges = [it for it in map(EXCHANGE.fullmatch, self.lines) if it]
        if len(exchanges) < len(self.lines):
            return "", "".join(f"{it}\n" for it in self.lines)
        return "".join(f"{it[1]}\n" for it in exchanges), "".join(f"{it[2]}\n" for it in exchanges)


def blocks(text: str) -> Iterator[tuple[int, str, list[str]]]:
    """The indented blocks of a document: the number of the first line, the last line above, and the lines."""
    above, begun, is_fenced = "", 0, False
    block: list[str] = []
    for number, line in enumerate([*text.split("\n"), "end"], 1):
        is_fenced ^= line.startswith("```")
        if line.startswith(INDENT) and not is_fenced:
            begun = begun if block else number
            block.append(line[len(INDENT) :])
        elif line.strip():
            if block:
                yield begun, above, block
                block = []
            above = line.strip()
        elif block:
            block.append("")


def commands(begun: int, block: list[str]) -> list[Command]:
    """The commands of a session."""
    found: list[Command] = []
    for number, line in enumerate(block, begun):
        if line.startswith("$ "):
            found.append(Command(line[2:], number))
        elif found and line:
            found[-1].lines.append(line)
    for it, after in zip(found, found[1:]):
        if after.words == ASKS_STATUS:
            it.status = int(after.lines[0])
    return found


def run(document: str, program: str, tally: Tally) -> None:
    with open(f"{ROOT}/{document}") as text, tempfile.TemporaryDirectory(prefix="session-") as folder:
        os.mkdir(f"{folder}/bin")
        os.symlink(program, f"{folder}/bin/daig")
        os.symlink(program, f"{folder}/daig")
        for name in ("crates", "tools"):
            os.symlink(f"{ROOT}/{name}", f"{folder}/{name}")
        path = f"{folder}/bin{os.pathsep}{os.environ['PATH']}"
        for begun, above, block in blocks(text.read()):
            found, named = commands(begun, block), FILE.search(above)
            if not found and named:
                with open(f"{folder}/{named[1]}", "w") as out:
                    out.write("\n".join(block).rstrip("\n") + "\n")
            for it in found:
                tally.note(f"{document}:{it.number}: {it.words}", it.fault(folder, path))


def all_documents() -> list[str]:
    """README, CONTRIBUTING, CHANGELOG, and what stands in docs/."""
    return ["README.md", "CONTRIBUTING.md", "CHANGELOG.md", *sorted(f"docs/{it}" for it in os.listdir(f"{ROOT}/docs") if it.endswith(".md"))]


def main(program: str, *documents: str) -> int:
    tally, program = Tally(), os.path.abspath(program)
    for document in documents or all_documents():
        run(document, program, tally)
    return tally.end()


if __name__ == "__main__":
    sys.exit(main(*sys.argv[1:]))
