#!/usr/bin/env python3
"""Runs the kit's gate, `rt ci`, with a log that has times; then tells what fails and where the time went: gate.py.

The kit's output passes through. A must-fail edit that cannot be applied or compiled, which the kit passes over, is a
failure here. `gate_times.py` reads the log. The last line is `N passed, M failed`.
"""
from __future__ import annotations

import os
import re
import subprocess
import sys
import threading
import time
from typing import IO

sys.dont_write_bytecode = True

import gate_times
import kit
import kit_work
import places
import progress
from progress import say
from tally import Tally

BAD = re.compile(r"rt: (?:must-fail )?(\S+): BAD EDIT: (.*)")


class Log:
    """The log of a gate: each line begins with the seconds since the gate began."""

    def __init__(self, out: IO[str]) -> None:
        self._out, self._began, self._lock = out, time.monotonic(), threading.Lock()
        self._working: dict[kit_work.Work, float] = {}

    def now(self) -> float:
        return time.monotonic() - self._began

    def _write(self, text: str) -> None:
        with self._lock:
            self._out.write(f"{self.now():.1f} {text}\n")
            self._out.flush()

    def said(self, line: str) -> None:
        """A line that the kit wrote."""
        self._write(f"| {line}")

    def doing(self) -> str:
        """What the kit is at work on."""
        works = sorted(f"{it.crate} ({it.kind})" for it in [*self._working])
        return f"in work: {', '.join(works)}" if works else ""

    def see(self, found: set[kit_work.Work]) -> None:
        """Notes what the kit is at work on; a work that has ended is a line."""
        for it in found:
            self._working.setdefault(it, self.now())
        for it in self._working.keys() - found:
            self._write(f"{it.kind} {it.crate} {self.now() - self._working.pop(it):.1f}")


def watch(child: subprocess.Popen[str], log: Log) -> None:
    """Sees the works begin and end, until the kit has ended."""
    while child.poll() is None:
        log.see(kit_work.at_work(child.pid))
        time.sleep(1)
    log.see(set())


def run(words: list[str], path: str, tally: Tally) -> None:
    """Runs the gate, and counts what it tells."""
    children, told, last = progress.Children(subprocess.DEVNULL), progress.Progress(), ""
    with open(path, "w") as out:
        log = Log(out)
        told.phase("the gate", log.doing)
        try:
            child = children.start(words, cwd=kit.ROOT, is_read=True)
            watcher = threading.Thread(target=watch, args=(child, log), daemon=True)
            watcher.start()
            assert child.stdout
            for line in child.stdout:
                print(line, end="", flush=True)
                log.said(line.rstrip("\n"))
                last = line if line.strip() else last
                bad = BAD.match(line)
                if bad:
                    tally.note(f"must-fail {bad[1]}", f"a bad edit: {bad[2]}")
            status = children.wait(child)
            watcher.join()
        finally:
            children.end()
            told.end()
    tally.add_last_line("the gate", last, status)


def main() -> int:
    tally, folder = Tally(), places.quick_folder()
    progress.interruptible()
    os.makedirs(folder, exist_ok=True)
    try:
        run(["rt", "ci"], f"{folder}/{gate_times.LOG}", tally)
    except progress.Interrupted as asked:
        say("interrupted: what was proved is kept")
        return asked.status
    except OSError as fault:
        tally.note("the gate", f"does not start: {fault.strerror}")
        return tally.end()
    print("\n".join(gate_times.told(folder)), flush=True)
    return tally.end()


if __name__ == "__main__":
    sys.exit(main())
