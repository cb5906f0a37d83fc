"""The runner of tests: what passes, fails and is left out is told and counted."""
import subprocess
import sys
import tempfile
from pathlib import Path

from kit import ROOT

MODULE = """
import unittest


def test_right():
    pass


def test_wrong():
    assert 1 == 2, "one is not two"


def test_left_out():
    raise unittest.SkipTest("there is no moon")


def helper():
    raise AssertionError


def test_of_something(value):
    raise AssertionError


class Methods(unittest.TestCase):
    def test_parts(self):
        for number in (1, 2, 3):
            with self.subTest(number=number):
                self.assertEqual(number, 2)

    def test_raises(self):
        raise KeyError("lost")
"""


def ran(module: str, *names: str, jobs: int = 1) -> tuple[int, str]:
    """The status of a run of a module's tests, and what is written."""
    with tempfile.TemporaryDirectory(prefix="runner-") as folder:
        (Path(folder) / "test_made.py").write_text(module)
        words = f"import sys, pathlib; sys.path.insert(0, {ROOT + '/tools'!r}); import unit_tests; here = pathlib.Path({folder!r})"
        run = f"{words}; sys.exit(unit_tests.run(here, here, sys.argv[1:], {jobs}))"
        done = subprocess.run([sys.executable, "-B", "-c", run, *names], capture_output=True, text=True, check=False)
    return done.returncode, done.stdout


def test_each_is_told_and_counted() -> None:
    for jobs in (1, 4):
        status, told = ran(MODULE, jobs=jobs)
        lines = told.splitlines()
        assert (status, lines[-1]) == (1, "1 passed, 4 failed"), told
        words = {line.split(" (")[0].replace("  ", "") for line in lines}
        assert any(it.startswith("ok") and "test_right" in it for it in words), told
        assert "one is not two" in told and "there is no moon" in told and "KeyError" in told, told
        assert "helper" not in told and "test_of_something" not in told, told


def test_names_pick_tests() -> None:
    assert ran(MODULE, "right")[1].splitlines()[-1] == "1 passed, 0 failed"
    assert ran(MODULE, "right")[0] == 0
    assert ran(MODULE, "Methods.test_parts")[1].splitlines()[-1] == "0 passed, 2 failed"


def test_a_module_that_does_not_load_and_no_test_at_all_fail() -> None:
    status, told = ran("import no_such_module\n")
    assert (status, told.splitlines()[-1]) == (1, "0 passed, 1 failed"), told
    assert ran(MODULE, "of_that_name_there_is_none")[0] == 1
