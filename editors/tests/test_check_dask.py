"""daig-check --cluster with Dask itself, where it is there: workers that are lost, that end, and that lack the program."""
from __future__ import annotations

import os
import shlex
import shutil
import subprocess
import unittest
from pathlib import Path

from tests.check_tool import LOOPS, SAFE, TOOL, UNSAFE, Ran, check, folder, script
from tests.dask_cluster import dask, python_with_dask, until
from tests.program import program

# A program that takes its time, and tells that it began.
SLOW = """import os, sys, time
os.write(os.open({log!r}, os.O_WRONLY | os.O_CREAT | os.O_APPEND), b".")
time.sleep(0.1)
os.execv({program!r}, ["daig", *sys.argv[1:]])
"""
# A program that ends the worker where the text is marked: its own parent is the process that the worker started.
DEADLY = """import os, signal, sys
if b"// marked" in open(sys.argv[-1], "rb").read():
    with open(f"/proc/{{os.getppid()}}/stat") as file:
        os.kill(int(file.read().rsplit(")")[-1].split()[1]), signal.SIGKILL)
os.execv({program!r}, ["daig", *sys.argv[1:]])
"""


def wanted() -> str:
    """A Python that has Dask; without one the test is left out."""
    python = python_with_dask()
    if python is None:
        raise unittest.SkipTest("Dask is not there")
    return python


def begun(address: str, where: Path) -> subprocess.Popen[bytes]:
    """A run that begins, over all files of a folder."""
    words = [wanted(), str(TOOL), "--try", "0", "--cluster", address, "."]
    return subprocess.Popen(words, cwd=where, stdin=subprocess.DEVNULL, stdout=subprocess.PIPE, stderr=subprocess.PIPE)


def ended(process: subprocess.Popen[bytes]) -> Ran:
    """What a run gave."""
    out, err = process.communicate(timeout=300)
    return Ran(process.returncode, out.decode(), err.decode())


def test_lost_worker() -> None:
    """A worker that is lost and one without the program cost no file."""
    many = {f"f{number:02}_imp": (SAFE, UNSAFE, LOOPS)[number % 3] for number in range(60)}
    wanted()
    with folder(**many) as here, folder() as other, dask(other) as cluster:
        log = other / "begun"
        slow = str(script(other, SLOW.format(log=str(log), program=program())))
        without = {it: "" for it in ("DAIG_PROGRAM",)}
        worker = cluster.worker("one", "--no-nanny", DAIG_PROGRAM=slow)
        cluster.worker("two", "--no-nanny", DAIG_PROGRAM=slow)
        cluster.worker("three", "--no-nanny", PATH="/nowhere", **without)
        run = begun(cluster.address, here)
        until(lambda: log.exists() and log.stat().st_size >= 15, "the middle")
        worker.kill()
        ran, plain = ended(run), check(".", where=here)
        assert (ran.status, ran.out) == (plain.status, plain.out) and plain.err in ran.err, (ran, plain)
        assert ran.err.count("checks nothing, so its files go to others: there is no program daig") == 1, ran.err


def test_file_that_ends_workers() -> None:
    """It is told as not checked, once two workers ended; the others are checked by workers that start anew."""
    many = {f"f{number}_imp": (SAFE, UNSAFE)[number % 2] for number in range(8)}
    wanted()
    with folder(**many) as here, folder() as other, dask(other) as cluster:
        plain = check(".", where=here)
        (here / "k.imp").write_text("// marked\n" + SAFE)
        cluster.worker("one", DAIG_PROGRAM=str(script(other, DEADLY.format(program=program()))))
        ran = ended(begun(cluster.address, here))
        (line,) = [it for it in ran.out.splitlines() if "k.imp" in it]
        assert "error: each worker that began to check it ended" in line, line
        assert ran.status == 2 and ran.out.replace(f"{line}\n", "") == plain.out, ran
