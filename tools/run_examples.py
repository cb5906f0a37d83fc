#!/usr/bin/env python3
"""Runs a program over the examples and rows of crates/examples/data: run_examples.py PROGRAM.

An example is a source, a script and what is to be written; the domain of each is the one that crates/examples runs it
by. A row tells of words, files, a script, what is written and the status; an empty line ends it.
"""
from __future__ import annotations

import os
import re
import subprocess
import sys
import tempfile
from concurrent.futures import ThreadPoolExecutor
from functools import partial
from typing import Callable

sys.dont_write_bytecode = True

from kit import ROOT
from tally import Tally, shown

DATA = f"{ROOT}/crates/examples/data"
LIMIT = 120
# What a line of a row may begin with, beside a remark.
KINDS = "$:%>~<?"


def examples() -> list[tuple[str, str]]:
    """The names of the examples, each with its domain."""
    with open(f"{ROOT}/crates/examples/src/main.rt") as text:
        found = re.findall(r'^ +\("(\w+)", "([\w+]+)"\),$', text.read(), re.M)
    names = {it[: -len(".imp")] for it in os.listdir(DATA) if it.endswith(".imp")}
    if {name for name, _ in found} != names:
        raise SystemExit(f"run_examples.py: {DATA} has other programs than crates/examples runs")
    return found


class Row:
    """A run that a block of lines tells of. A line of an unknown kind, or no words to run, is an error."""

    def __init__(self, lines: list[str]) -> None:
        self.words: list[str] = []
        self.script, self.wanted, self.status = "", "", 0
        self.files = {"f": ""}
        for line in lines:
            self._add(line[:1], line[1:])
        if not self.words:
            raise SystemExit(f"run_examples.py: a row has no words to run: {lines}")

    def _add(self, kind: str, rest: str) -> None:
        """Adds what a line tells of the run: its kind, and what stands behind it."""
        if kind == "#":
            return
        if kind == "%":
            self.files.setdefault("c", "")
        if kind not in KINDS or not (rest.startswith(" ") or not rest and kind in "%>"):
            raise SystemExit(f"run_examples.py: this line of a row is of no kind: {kind}{rest}")
        text = rest[1:]
        if kind == "$":
            self.words = text.split()
        elif kind == ":":
            self.files["f"] += text + "\n"
        elif kind == "%":
            self.files["c"] += text + "\n" if rest else ""
        elif kind == ">":
            self.script += text + "\n"
        elif kind == "~":
            self.script += text
        elif kind == "<":
            self.wanted += text + "\n"
        elif kind == "?":
            self.status = int(text)

    def fault(self, program: str) -> str:
        """What the program writes or ends with, where that is not what is told."""
        with tempfile.TemporaryDirectory(prefix="row-") as folder:
            for name, text in self.files.items():
                with open(f"{folder}/{name}", "wb") as out:
                    out.write(text.encode("utf-8", "surrogateescape"))
            return fault_of([program, *self.words[1:]], folder, self.script, self.wanted, self.status)


def fault_of(words: list[str], folder: str, script: str, wanted: str, status: int) -> str:
    """Runs a program in a folder, and says what differs."""
    given, told = (it.encode("utf-8", "surrogateescape") for it in (script, wanted))
    try:
        ran = subprocess.run(words, cwd=folder, input=given, stdout=subprocess.PIPE, timeout=LIMIT)
    except subprocess.TimeoutExpired:
        return f"did not end within {LIMIT} seconds"
    if ran.returncode != status:
        return f"ended with {ran.returncode} in place of {status}"
    if ran.stdout != told:
        return f"wrote {shown(ran.stdout)} in place of {shown(told)}"
    return ""


def read(path: str) -> str:
    with open(path, encoding="utf-8", errors="surrogateescape", newline="\n") as text:
        return text.read()


def names() -> list[str]:
    """The names of the files of rows."""
    return sorted(it for it in os.listdir(DATA) if it.endswith(".rows"))


def rows(name: str) -> list[Row]:
    """The rows of a file."""
    blocks = [it.strip("\n").split("\n") for it in re.split(r"\n\n+", read(f"{DATA}/{name}"))]
    return [Row(it) for it in blocks if any(line and not line.startswith("#") for line in it)]


def main(program: str) -> int:
    program, tally = os.path.abspath(program), Tally()
    checks: list[tuple[str, Callable[[], str]]] = []
    for name, domain in examples():
        script, wanted = read(f"{DATA}/{name}.jsonl"), read(f"{DATA}/{name}.expected")
        words = [program, "serve", "--domain", domain, f"{name}.imp"]
        checks.append((f"example {name}", partial(fault_of, words, DATA, script, wanted, 0)))
    for name in names():
        for number, row in enumerate(rows(name), 1):
            checks.append((f"{name}, row {number}: {' '.join(row.words)}", partial(row.fault, program)))
    with ThreadPoolExecutor(len(os.sched_getaffinity(0))) as pool:
        for name, found in [(name, pool.submit(check)) for name, check in checks]:
            tally.note(name, found.result())
    return tally.end()


if __name__ == "__main__":
    sys.exit(main(sys.argv[1]))
