#!/usr/bin/env python3
"""Proves the crates that the program is made of, and puts the proved program in its place.

    prove.py [--jobs N] [--then WORD ..]

It is the kit's gate (`rt ci`) over a copy that has those crates alone, without their must-fail edits. The gate proves each
crate once all below it are proved, so many side by side, and keeps what it proved by content, on this machine: what an
earlier run or a gate proved is not proved again, in whichever checkout that was. The old program stays until the new one
is there. With `--then` the program is run with the words, in the place of this process.
"""
from __future__ import annotations

import os
import re
import shutil
import subprocess
import sys
import tempfile
import threading
import time
from typing import IO, Iterator

sys.dont_write_bytecode = True

import kit
import kit_work
import places
import progress
from progress import say

# Seconds of a processor for a line, before anything was measured, and how many lines of that weigh against what is.
EXPECTED = 0.09
WEIGHT = 4000
# What takes less says nothing of the others.
SHORT = 4
# How many proofs are measured before their time says something of the others.
ENOUGH = 3
# What the gate says of a crate that is proved, and of one whose proof was kept.
DONE = re.compile(r"rt: (\w+) (?:proved$|(is kept: ))")


def files_of(crate: str) -> Iterator[str]:
    """The sources, definitions and proofs of a crate."""
    for part in ("src", "specs", "proofs"):
        for at, _, names in os.walk(f"{kit.ROOT}/crates/{crate}/{part}"):
            yield from (f"{at}/{name}" for name in names)


def lines_of(crate: str) -> int:
    """How many lines a crate has: what its proof takes grows with them."""
    many = 0
    for path in files_of(crate):
        with open(path, "rb") as text:
            many += text.read().count(b"\n")
    return many


def copy_sources(to: str) -> None:
    """Copies what the program is proved and built of: its crates, without their must-fail edits."""
    crates = {*kit.crates_of()}
    for name in crates:
        shutil.copytree(f"{kit.ROOT}/crates/{name}", f"{to}/crates/{name}", ignore=shutil.ignore_patterns("out", "must-fail"))
    if os.path.exists(f"{kit.ROOT}/HANDLES"):
        shutil.copy(f"{kit.ROOT}/HANDLES", to)
    with open(f"{kit.ROOT}/crates.txt") as lines, open(f"{to}/crates.txt", "w") as out:
        out.writelines(it for it in lines if crates.intersection(it.split("#")[0].partition(":")[0].split()[:1]))
    # The kit wants its crates at the top of a repository.
    os.mkdir(f"{to}/.git")


class Estimate:
    """How far the proving is, and how long the rest may take."""

    def __init__(self, crates: list[str], jobs: int) -> None:
        self.lines = {it: lines_of(it) for it in crates}
        self.below = {it: kit.crates_of(it)[:-1] for it in crates}
        self.jobs = jobs
        # What was kept is done without a proof in this run.
        self.kept: set[str] = set()
        self.done: set[str] = set()
        self.begun: dict[str, float] = {}
        self.measured, self.measured_lines, self.measured_seconds = 0, 0, 0.0
        self._lock = threading.Lock()

    def see(self, found: set[kit_work.Work]) -> None:
        """Notes what the kit is at work on."""
        now = time.monotonic()
        with self._lock:
            for name in {it.crate for it in found if it.kind == kit_work.PROOF and it.crate in self.lines}:
                self.begun.setdefault(name, now)

    def finish(self, name: str, is_kept: bool = False) -> None:
        """Notes that a crate is proved, by this run or by an earlier one."""
        with self._lock:
            if name not in self.lines or name in self.done:
                return
            self.done.add(name)
            seconds = time.monotonic() - self.begun.get(name, time.monotonic())
            if is_kept:
                self.kept.add(name)
            elif seconds >= SHORT:
                self.measured += 1
                self.measured_lines += self.lines[name]
                self.measured_seconds += seconds

    def left(self) -> float | None:
        """Seconds that the rest may take: all of it side by side, but no less than the longest chain. None where too few
        proofs were measured."""
        if self.measured < ENOUGH:
            return None
        rate = (EXPECTED * WEIGHT + self.measured_seconds) / (WEIGHT + self.measured_lines)
        now = time.monotonic()
        whole, chains = 0.0, {"": 0.0}
        for name, lines in self.lines.items():
            own = 0.0 if name in self.done else max(lines * rate - (now - self.begun.get(name, now)), 0.0)
            whole += own
            chains[name] = own + max(chains.get(it, 0.0) for it in ("", *self.below[name]))
        return max(whole / self.jobs, *chains.values())

    def words(self) -> str:
        with self._lock:
            kept = f" ({len(self.kept)} kept from earlier runs)" if self.kept else ""
            done = f"{len(self.done)} of {len(self.lines)} crates done{kept}"
            working, left = [it for it in self.begun if it not in self.done], self.left()
            done += f", in work: {' '.join(sorted(working))}" if working else ""
            return f"{done}, about {max(round(left / 60), 1)} min left" if left is not None else done


class Proving:
    """One run: the gate over the copy, and then its program in the place of the old one."""

    def __init__(self, jobs: int | None, log: IO[str], told: progress.Progress) -> None:
        self.log, self.told, self.jobs = log, told, jobs
        self.children = progress.Children(log)

    def run(self) -> bool:
        """Whether all was proved and the program is there."""
        began = time.time()
        with tempfile.TemporaryDirectory(prefix="daig-prove-") as folder:
            copy_sources(folder)
            if not self._prove(folder):
                return False
            self._place(f"{folder}/crates/{kit.ROOT_CRATE}/out/{kit.ROOT_CRATE}", began)
        return True

    def _prove(self, folder: str) -> bool:
        estimate = Estimate(kit.crates_of(), self.jobs or processors())
        # With no number the kit takes what processors and memory allow.
        environment = {**os.environ, "RT_JOBS": str(self.jobs)} if self.jobs else None
        child = self.children.start(["rt", "ci"], cwd=folder, env=environment, is_read=True)

        def told() -> str:
            estimate.see(kit_work.at_work(child.pid))
            return estimate.words()

        self.told.phase("proving", told)
        threading.Thread(target=self._watch, args=(child, estimate), daemon=True).start()
        assert child.stdout
        for line in child.stdout:
            self.log.write(line)
            self.log.flush()
            found = DONE.match(line)
            if found:
                estimate.finish(found[1], bool(found[2]))
                if not found[2]:
                    self.told.phase("proving", told)
        is_proved = self.children.wait(child) == 0
        if is_proved:
            self.told.phase("proving", told)
        return is_proved

    def _watch(self, child: subprocess.Popen[str], estimate: Estimate) -> None:
        """Sees each proof begin, also between two lines that are told."""
        while child.poll() is None:
            estimate.see(kit_work.at_work(child.pid))
            time.sleep(1)

    def _place(self, made: str, began: float) -> None:
        """Puts a program in the place of the proved one, with the kit's line beside it."""
        program = f"{kit.ROOT}/crates/{kit.ROOT_CRATE}/out/{kit.ROOT_CRATE}"
        os.makedirs(os.path.dirname(program), exist_ok=True)
        shutil.copy(made, f"{program}.new")
        # A source that was changed since this run began is newer than the program.
        os.utime(f"{program}.new", (began, began))
        with open(f"{program}.kit", "w") as out:
            out.write(kit.Kit.find().stamp())
        os.replace(f"{program}.new", program)


def processors() -> int:
    return len(os.sched_getaffinity(0))


def prove(jobs: int | None) -> bool:
    """Whether the proved program is there and fresh at the end."""
    kit.Kit.find()
    if places.fresh_program("proved"):
        say("the proved program is there and fresh")
        return True
    folder = places.quick_folder()
    os.makedirs(folder, exist_ok=True)
    path, told = f"{folder}/prove.log", progress.Progress()
    say(f"proving {len(kit.crates_of())} crates, {jobs or processors()} at a time; stopped, it goes on from there the next time")
    with open(path, "w+") as log:
        work = Proving(jobs, log, told)
        try:
            proved = work.run()
        finally:
            work.children.end()
            told.end()
    if proved and places.fresh_program("proved"):
        os.remove(path)
        say(f"proved in {told.gone()}: ./daig runs the proved program now")
        return True
    progress.say_end_of(path)
    say("a source was changed meanwhile: prove once more" if proved else f"not proved; the log is {path}")
    return False


class Unclear(Exception):
    """The words are not those of the command."""


def jobs_in(words: list[str]) -> int | None:
    """The number behind `--jobs`, if it is said."""
    if not words:
        return None
    if len(words) == 2 and words[0] == "--jobs" and re.fullmatch(r"[1-9]\d{0,3}", words[1]):
        return int(words[1])
    raise Unclear


def main(words: list[str]) -> int:
    cut = words.index("--then") if "--then" in words else len(words)
    progress.interruptible()
    try:
        proved = prove(jobs_in(words[:cut]))
    except Unclear:
        say("usage: prove [--jobs N]")
        return 2
    except progress.Interrupted as asked:
        say("interrupted: what was proved is kept, and ./prove goes on from there")
        return asked.status
    except (kit.KitMissing, OSError) as fault:
        say(f"not proved: {fault}")
        return 1
    if proved and cut < len(words):
        program = places.fresh_program("proved")
        os.execv(program, [program, *words[cut + 1 :]])
    return 0 if proved else 1


if __name__ == "__main__":
    sys.exit(main(sys.argv[1:]))
