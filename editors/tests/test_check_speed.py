"""How long daig-check takes: processor time, which other work on the machine changes little."""
from __future__ import annotations

import os
import resource
import shutil
import subprocess
import sys
import time
from pathlib import Path

from tests.check_tool import EXAMPLES, SAFE, TOOL, folder
from tests.program import program

FILES, SECONDS = 200, 3.0
RUNS, SECONDS_OF_ONE = 20, 0.12


def test_two_hundred_files() -> None:
    """200 files take at most 3 s of processor time, that of their servers included."""
    examples = sorted(EXAMPLES.glob("*.imp"))
    with folder() as here:
        for number in range(FILES):
            shutil.copy(examples[number % len(examples)], here / f"f{number}.imp")
        before, began = resource.getrusage(resource.RUSAGE_CHILDREN), time.monotonic()
        environment = {**os.environ, "DAIG_PROGRAM": program()}
        done = subprocess.run(
            [sys.executable, str(TOOL), "."], cwd=here, env=environment, capture_output=True, text=True
        )
        took, after = time.monotonic() - began, resource.getrusage(resource.RUSAGE_CHILDREN)
    used = after.ru_utime + after.ru_stime - before.ru_utime - before.ru_stime
    print(f"{FILES} files: {used:.2f} s of processors, {took:.2f} s, load {os.getloadavg()[0]:.1f}")
    assert done.returncode == 1 and done.stderr.startswith(f"{FILES} files, "), done
    assert used <= SECONDS, used


def test_one_file() -> None:
    """One file takes at most 0.12 s of processor time in the best of some runs, that of its server and of Python included."""
    with folder(a_imp=SAFE) as here:
        environment = {**os.environ, "DAIG_PROGRAM": program(), "PYTHONPYCACHEPREFIX": str(here / "kept")}
        environment.pop("PYTHONDONTWRITEBYTECODE", None)
        took = []
        for _ in range(RUNS):
            before = resource.getrusage(resource.RUSAGE_CHILDREN)
            done = subprocess.run([sys.executable, str(TOOL), "a.imp"], cwd=here, env=environment, capture_output=True)
            after = resource.getrusage(resource.RUSAGE_CHILDREN)
            assert done.returncode == 0, done
            took.append(after.ru_utime + after.ru_stime - before.ru_utime - before.ru_stime)
    print(f"one file: {min(took):.3f} s of a processor at best, load {os.getloadavg()[0]:.1f}")
    assert min(took) <= SECONDS_OF_ONE, took


# What a check of one good file does without, and what would take longer to load than the check takes.
NOT_LOADED = {"_ssl", "asyncio", "hashlib", "difflib", "tomllib", "html"}
NOT_LOADED |= {"dataclasses", "inspect", "pathlib", "shutil", "tempfile", "random", "urllib.parse"}
NOT_LOADED |= {
    f"daig_editor.{it}"
    for it in ("protocol", "language.kinds", "checking.comparison", "checking.certificates", "reports.sarif")
}


def loaded(*words: str, where: Path) -> set[str]:
    """The modules that Python loads for some words."""
    environment = {**os.environ, "DAIG_PROGRAM": program()}
    command = [sys.executable, "-X", "importtime", *words]
    done = subprocess.run(command, cwd=where, env=environment, capture_output=True, text=True)
    assert done.returncode == 0, done.stderr
    return {it.rpartition("|")[2].strip() for it in done.stderr.splitlines() if it.startswith("import time:")}


def test_start() -> None:
    """A check of one file loads only what it needs, which is most of its time."""
    with folder(a_imp=SAFE) as here:
        names = loaded(str(TOOL), "a.imp", where=here) - loaded("-c", "", where=here)
        assert "daig_editor.checking.analysis" in names, names
        assert not names & NOT_LOADED, names & NOT_LOADED
