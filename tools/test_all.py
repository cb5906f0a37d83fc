#!/usr/bin/env python3
"""Tests everything: test_all.py [--all].

First what needs no proof: the program and the tests of crates are compiled without proofs and run; so are the examples
and rows, the sessions that the documents show, what the documents say of the repository, the editor's tests and the
launcher's. They run side by side, one for each processor; each is told as it ends, with all that it wrote where it
failed. `--all` then runs the gate (`gate.py`: every proof, must-fail edit, test, and program), whose output passes
through. The last line is `N passed, M failed` over all, and the status is 0 where nothing failed.
"""
from __future__ import annotations

import os
import re
import subprocess
import sys
from concurrent.futures import FIRST_COMPLETED, Future, ThreadPoolExecutor, wait
from dataclasses import dataclass, field
from typing import IO, Callable

sys.dont_write_bytecode = True

import kit
import places
import progress
from progress import say
from tally import Tally

# How many random changes the editor's tests make.
CHANGES = "300"
# Stands for the program in a suite's words.
PROGRAM = "PROGRAM"
# The editor's tests that take long, the longest first; the others are run after them, together.
LONG = ("test_faults", "test_ending", "test_check_status", "test_check_runs", "test_answers", "test_messages")
LEFT_OUT = re.compile(r"left out|\bskipped\b", re.I)


@dataclass
class Suite:
    """Tests that one command runs."""

    name: str
    words: list[str]
    # Whether it waits for the program.
    asks: bool = False
    # Whether its status alone tells how it ended, and not its last line.
    is_step: bool = False
    lines: list[str] = field(default_factory=list)
    status: int = 0

    def doing(self) -> str:
        """What it is at, where it says so."""
        last = self.lines[-1].strip() if self.lines else ""
        found = re.fullmatch(r"daig: (.*?)(?: \([^()]* gone\))?", last)
        return f"{self.name} ({found[1]})" if found else self.name


def python(tool: str, *words: str) -> list[str]:
    return [sys.executable, f"{places.TOOLS}/{tool}", *words]


def crates_with_tests() -> list[str]:
    """The crates that have tests, those over the most crates first."""
    found = []
    for crate in kit.listed():
        for at, _, names in os.walk(f"{kit.ROOT}/crates/{crate}/src"):
            texts = (open(f"{at}/{name}", encoding="utf-8") for name in names)
            if crate not in found and any("\n#[test]" in it.read() for it in texts):
                found.append(crate)
    return sorted(found, key=lambda it: -len(kit.crates_of(it)))


def editor_suites() -> list[Suite]:
    """The editor's tests: some modules each alone, and the others."""
    names = {it[: -len(".py")] for it in os.listdir(f"{kit.ROOT}/editors/tests") if re.fullmatch(r"test_\w+\.py", it)}
    long = [it for it in LONG if it in names]
    parts = [[it] for it in long] + [sorted(names - {*long})]
    return [
        Suite(f"the editor: {it[0] if len(it) == 1 else 'the rest'}", ["editors/test", CHANGES, *(f"{name}." for name in it)], True)
        for it in parts
    ]


def suites() -> list[Suite]:
    """All suites, in the order in which they begin where a processor is free."""
    built = Suite("the program without proofs", python("quick_build.py"), is_step=True)
    crates = [Suite(f"the tests of {it}", python("crate_tests.py", it)) for it in crates_with_tests()]
    return [
        built,
        *crates[:1],
        Suite("the launcher", python("tests/run.py")),
        *crates[1:],
        Suite("what the documents say", python("check_documents.py")),
        Suite("the protocol's schema", python("check_protocol.py")),
        *editor_suites(),
        Suite("examples and rows", python("run_examples.py", PROGRAM), True),
        Suite("precision", ["bench/score", "--check", "--program", PROGRAM], True),
        Suite("sessions of the documents", python("run_sessions.py", PROGRAM), True),
        Suite("random tickets", python("random_tickets.py", PROGRAM), True),
    ]


class Run:
    """One run of the suites that need no proof."""

    def __init__(self, tally: Tally, suites: list[Suite], find: Callable[[], str], out: IO[str]) -> None:
        """The first suite makes the program, which `find` then finds."""
        self.tally, self.told, self.program, self.find, self.out = tally, progress.Progress(), "", find, out
        self.children = progress.Children(subprocess.DEVNULL)
        self.open, self.many, self.built = list(suites), len(suites), suites[0]
        self.running: list[Suite] = []

    def run(self, lanes: int) -> None:
        """Runs all, so many at a time."""
        is_built = False
        under_way: dict[Future[None], Suite] = {}
        self.told.phase("testing", self._doing)
        with ThreadPoolExecutor(lanes) as pool:
            try:
                while self.open or under_way:
                    ready = [it for it in self.open if is_built or not it.asks]
                    for suite in ready[: lanes - len(under_way)]:
                        self.open.remove(suite)
                        self.running.append(suite)
                        under_way[pool.submit(self._run, suite)] = suite
                    for done in wait(under_way, return_when=FIRST_COMPLETED).done:
                        suite = under_way.pop(done)
                        self.running.remove(suite)
                        done.result()
                        self._tell(suite)
                        if suite is self.built:
                            is_built = self._take_program()
            finally:
                self.children.end()
                self.told.end()

    def _take_program(self) -> bool:
        """Whether there is a program; where there is none, what asks it is left out."""
        self.program = "" if self.built.status else self.find()
        self.tally.note(self.built.name, "" if self.program else "there is none, so what asks it was not run")
        self.open = [it for it in self.open if self.program or not it.asks]
        return bool(self.program)

    def _run(self, suite: Suite) -> None:
        environment = {**os.environ, "DAIG_PROGRAM": self.program}
        words = [self.program if it == PROGRAM else it for it in suite.words]
        child = self.children.start(words, cwd=kit.ROOT, env=environment, is_read=True)
        assert child.stdout
        for line in child.stdout:
            suite.lines.append(line)
        suite.status = self.children.wait(child)

    def _tell(self, suite: Suite) -> None:
        """Tells how a suite ended, and counts what its last line says."""
        before, failed = self.tally.passed, len(self.tally.failed)
        last = next((it.strip() for it in reversed(suite.lines) if it.strip()), "")
        if not suite.is_step:
            self.tally.add_last_line(suite.name, last, suite.status)
        if suite.status or len(self.tally.failed) > failed:
            print(f"== {suite.name}: {' '.join(suite.words)}\n{''.join(suite.lines)}", end="", file=self.out)
        else:
            print("".join(it for it in suite.lines if LEFT_OUT.search(it)), end="", file=self.out)
        how = f": {self.tally.passed - before} passed, {len(self.tally.failed) - failed} failed"
        print(f"== {suite.name}{'' if suite.is_step else how} ({self.told.gone()} gone)", file=self.out, flush=True)

    def _doing(self) -> str:
        done = self.many - len(self.open) - len(self.running)
        working = ", ".join(it.doing() for it in [*self.running])
        return f"{self.tally.passed} passed, {len(self.tally.failed)} failed, {done} of {self.many} suites done{working and f'; now {working}'}"


def run_gate(tally: Tally) -> None:
    """Runs the gate, passes its output through, and counts what its last line tells."""
    print("== the gate (rt ci)", flush=True)
    children, last = progress.Children(subprocess.DEVNULL), ""
    try:
        child = children.start(python("gate.py"), cwd=kit.ROOT, is_read=True)
        assert child.stdout
        for line in child.stdout:
            print(line, end="", flush=True)
            last = line if line.strip() else last
        tally.add_last_line("the gate", last, children.wait(child))
    finally:
        children.end()


def main(words: list[str]) -> int:
    if words == ["--quick"]:
        say("./test is without proofs now, so there is no --quick; ./test --all adds the gate")
        return 2
    if words not in ([], ["--all"]):
        say("usage: test [--all]")
        return 2
    tally = Tally()
    progress.interruptible()
    find = lambda: places.fresh_program("quick") or places.fresh_program("proved")
    Run(tally, suites(), find, sys.stdout).run(len(os.sched_getaffinity(0)))
    if words:
        run_gate(tally)
    print("== all")
    if not words:
        print("Proofs were not run: ./test --all runs them too, in an hour and forty minutes.")
    return tally.end()


if __name__ == "__main__":
    try:
        sys.exit(main(sys.argv[1:]))
    except progress.Interrupted as asked:
        sys.exit(asked.status)
