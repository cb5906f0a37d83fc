"""daig-check --cluster: files are checked by the workers of a Dask scheduler, which the tests stand in for."""
from __future__ import annotations

from pathlib import Path
from unittest.mock import patch

from daig_editor.checking import cluster
from tests.check_tool import DEAD, LOOPS, NO_PROGRAM, SAFE, UNSAFE, Ran, check, folder, script
from tests.fake_dask import FakeDask, dask_is
from tests.program import program

FILES = {"a_imp": UNSAFE, "b_imp": SAFE, "c_imp": NO_PROGRAM, "d_imp": LOOPS, "e_imp": DEAD}
MARKED = "// marked\n" + SAFE
NO_DAIG = "there is no program daig on the PATH"
# A program that does something else where the text is marked.
ON_MARK = """import os, signal, sys, time
if b"// marked" in open(sys.argv[-1], "rb").read():
    {what}
os.execv({program!r}, ["daig", *sys.argv[1:]])
"""


def by(dask: FakeDask | None, *words: object, where: Path, text: str = "") -> Ran:
    """A run by a cluster."""
    with dask_is(dask), patch.object(cluster, "LOOK_EVERY", 0.1):
        return check("--cluster", "tcp://scheduler:8786", *words, where=where, text=text)


def fake(where: Path, **more: object) -> FakeDask:
    """A cluster whose workers have a folder beside the files."""
    (where / ".workers").mkdir(exist_ok=True)
    return FakeDask(str(where / ".workers"), **more)  # type: ignore[arg-type]


def line_of(ran: Ran, name: str) -> str:
    """The only line of a report that names a file."""
    (line,) = [it for it in ran.out.splitlines() if name in it]
    return line


def test_same_report() -> None:
    """A cluster gives what a run here gives, in the order of the command line, and of standard input."""
    with folder(**FILES) as here:
        words = ("e.imp", "d.imp", "c.imp", "gone.imp", "b.imp", "a.imp")
        for more in (("--try", "8"), ("-f", "html"), ("-f", "json", "--domain", "interval", "--budget", "1")):
            dask = fake(here)
            assert by(dask, *more, *words, where=here) == check(*more, *words, where=here), more
            assert dask.closed and {it for _, it in dask.tasks} == set(dask.workers), dask
        assert by(fake(here), "-", where=here, text=UNSAFE) == check("-", where=here, text=UNSAFE)


def test_same_change() -> None:
    """What a change did is told as by a run here."""
    with folder(**FILES) as here, folder(a_imp=SAFE, d_imp=LOOPS) as old:
        words = ("--against", old, "--new", ".")
        assert by(fake(here), *words, where=here) == check(*words, where=here)


def test_many_files() -> None:
    """Small files share a task, and large ones have one each."""
    many = {f"f{number:02}_imp": SAFE if number % 2 else UNSAFE for number in range(40)}
    large = SAFE + "// x\n" * cluster.MOST_BYTES
    with folder(**many, large_imp=large) as here, patch.object(cluster, "MOST_IN_TASK", 4):
        dask = fake(here)
        assert by(dask, ".", where=here) == check(".", where=here)
        tasks = [names for names, _ in dask.tasks]
        assert max(len(it) for it in tasks) == cluster.MOST_IN_TASK and ["./large.imp"] in tasks, tasks
        assert sorted(name for names in tasks for name in names) == sorted(f"./{it.name}" for it in here.glob("*.imp"))


def test_file_that_ends_workers() -> None:
    """It is told as not checked, and the others of its task are checked."""
    many = {f"f{number:02}_imp": SAFE for number in range(20)}
    with folder(**{**many, "f10_imp": UNSAFE}, k_imp=MARKED) as here:
        dask = fake(here, ends=lambda text: b"// marked" in text)
        ran = by(dask, ".", where=here)
        line = line_of(ran, "k.imp")
        assert "error: each worker that began to check it ended" in line and line.endswith("[run]"), line
        (here / "k.imp").unlink()
        assert ran.status == 2 and ran.out.replace(f"{line}\n", "") == check(".", where=here).out, ran
        shared = [names for names, _ in dask.tasks if "./k.imp" in names]
        assert len(shared) == 2 and len(shared[0]) > 1 and len(shared[1]) == 1, shared


def test_process_that_ends() -> None:
    """A file whose process ends is tried again alone, so often, and told; the others are checked."""
    text = ON_MARK.format(what="os.kill(os.getppid(), signal.SIGKILL)", program=program())
    with folder(**FILES, k_imp=MARKED) as here:
        dask = fake(here)
        ran = by(dask, "--program", script(here, text), ".", where=here)
        line = line_of(ran, "k.imp")
        assert "error: the process that checked it on the worker tcp://" in line and "ended with status -9" in line, line
        assert ran.status == 2 and "6 files, 7 checks" in ran.err, ran
        assert sum(names == ["./k.imp"] for names, _ in dask.tasks) == cluster.MOST_TRIES + 1, dask.tasks


def test_lost_tasks() -> None:
    """Tasks that are lost are sent again, but not for ever."""
    with folder(**FILES) as here:
        dask = fake(here, lost=2)
        assert by(dask, ".", where=here) == check(".", where=here) and len(dask.tasks) == len(FILES) + 2, dask.tasks
        ran = by(fake(here, lost=1_000), "a.imp", where=here)
        assert ran.status == 2 and "a.imp:1:1: error: its task failed: it was lost [run]" in ran.out, ran
        ran = by(fake(here, fault=ValueError("x" * 5_000 + "\ny")), "a.imp", where=here)
        assert ran.status == 2 and "a.imp:1:1: error: its task failed: ValueError: xxx" in ran.out, ran
        assert len(ran.out) < 500 and "y" not in ran.out.split("ValueError")[1], ran


def test_worker_without_program() -> None:
    """It is told once, and its files run elsewhere; where no worker has the program, each file says so."""
    many = {f"f{number:02}_imp": SAFE for number in range(20)}
    with folder(**many) as here:
        dask = fake(here, useless=("tcp://two",))
        ran, plain = by(dask, ".", where=here), check(".", where=here)
        told = f"daig-check: the worker tcp://two checks nothing, so its files go to others: {NO_DAIG}\n"
        assert (ran.status, ran.out, ran.err) == (0, plain.out, told + plain.err), ran
        last = dask.tasks[-1]
        assert last[1] == "tcp://one", dask.tasks
        ran = by(fake(here, useless=("tcp://one", "tcp://two")), ".", where=here)
        assert ran.status == 2 and ran.out.count(f": {NO_DAIG} [run]") == len(many), ran


def test_no_worker() -> None:
    """Where there is no worker for too long, no file waits any longer."""
    with folder(**FILES) as here, patch.object(cluster, "LONGEST_WITHOUT", 0.3):
        ran = by(fake(here, workers=()), ".", where=here)
        assert ran.status == 2 and ran.out.count("error: the scheduler has had no worker for 0.3 seconds [run]") == 5, ran


def test_silent_scheduler() -> None:
    """Where the scheduler answers nothing for too long, no file waits any longer."""
    with folder(**FILES) as here, patch.object(cluster, "LONGEST_SILENCE", 0.3):
        ran = by(fake(here, silent=True), ".", where=here)
        assert ran.status == 2 and ran.out.count("error: the scheduler has not answered for 0.3 seconds [run]") == 5, ran


def test_time_of_a_file() -> None:
    """A file that takes too long on a worker is told, and no other."""
    text = ON_MARK.format(what="time.sleep(60)", program=program())
    with folder(**FILES, k_imp=MARKED) as here:
        ran = by(fake(here), "--timeout", "5", "--program", script(here, text), ".", where=here)
        assert "error: it was not checked within 5 seconds" in line_of(ran, "k.imp"), ran
        assert ran.status == 2 and "6 files, 7 checks" in ran.err, ran


def test_no_cluster() -> None:
    """Where Dask is not there, or what is asked is not to be had, it is said, and nothing is checked."""
    with folder(**FILES) as here:
        ran = by(None, ".", where=here)
        assert ran.status == 2 and ran.out == "" and "--cluster tcp://scheduler:8786: Dask is wanted" in ran.err, ran
        ran = by(None, "--cert", "c", ".", where=here)
        assert ran.status == 2 and "--cert: certificates are kept where" in ran.err, ran
