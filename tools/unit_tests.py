"""Runs the tests of a folder by the standard library's runner.

A test is a method `test_*` of a TestCase, or a function `test_*` without parameters, of a module `test_*.py`. Each is
told as it ends; the last line is `N passed, M failed`, where each failing part of a test counts.
"""
from __future__ import annotations

import sys
import time
import unittest
from concurrent.futures import ThreadPoolExecutor
from inspect import isfunction, signature
from pathlib import Path
from types import ModuleType
from typing import Any, Callable, Iterable, Iterator


class _FunctionTest(unittest.FunctionTestCase):
    """A test that is a function, with the name that a method would have."""

    def __init__(self, function: Callable[[], object]) -> None:
        super().__init__(function)
        self._name = f"{function.__module__}.{function.__qualname__}"

    def id(self) -> str:
        return self._name


class _Loader(unittest.TestLoader):
    """Finds functions too, in the order of the text."""

    def loadTestsFromModule(self, module: ModuleType, *words: Any, **more: Any) -> unittest.TestSuite:
        suite = super().loadTestsFromModule(module, *words, **more)
        own = [it for it in vars(module).values() if isfunction(it) and it.__module__ == module.__name__]
        suite.addTests(_FunctionTest(it) for it in own if it.__name__.startswith("test_") and not signature(it).parameters)
        return suite


class _SideBySide(unittest.TestSuite):
    """Tests that run so many at a time. Modules and classes of theirs need nothing before."""

    def __init__(self, tests: Iterable[unittest.TestCase], jobs: int) -> None:
        super().__init__(tests)
        self._jobs = jobs

    def run(self, result: unittest.TestResult, debug: bool = False) -> unittest.TestResult:
        def run_one(test: unittest.TestCase | unittest.TestSuite) -> None:
            test.run(result)

        with ThreadPoolExecutor(self._jobs) as pool:
            for running in [pool.submit(run_one, it) for it in self]:
                running.result()
        return result


class _Result(unittest.TextTestResult):
    """Tells each test in a line as it ends, and counts what the standard library does not: those that passed."""

    def __init__(self, *words: Any) -> None:
        super().__init__(*words)
        self.passed = 0
        self._begun: dict[str, float] = {}

    @property
    def failed(self) -> int:
        """How many tests, and parts of tests, failed."""
        return len(self.failures) + len(self.errors) + len(self.unexpectedSuccesses)

    def _tell(self, word: str, test: unittest.TestCase, more: str = "") -> None:
        took = time.perf_counter() - self._begun.get(test.id(), time.perf_counter())
        self.stream.write(f"{word:8} {test.id()} ({took:.1f} s){more}\n")
        self.stream.flush()

    def getDescription(self, test: unittest.TestCase) -> str:
        return test.id()

    def startTest(self, test: unittest.TestCase) -> None:
        self._begun[test.id()] = time.perf_counter()
        super().startTest(test)

    def addSuccess(self, test: unittest.TestCase) -> None:
        super().addSuccess(test)
        self.passed += 1
        self._tell("ok", test)

    def addFailure(self, test: unittest.TestCase, err: Any) -> None:
        super().addFailure(test, err)
        self._tell("FAILED", test)

    def addError(self, test: unittest.TestCase, err: Any) -> None:
        super().addError(test, err)
        self._tell("FAILED", test)

    def addSubTest(self, test: unittest.TestCase, subtest: unittest.TestCase, err: Any) -> None:
        super().addSubTest(test, subtest, err)
        if err is not None:
            self._begun[subtest.id()] = self._begun[test.id()]
            self._tell("FAILED", subtest)

    def addUnexpectedSuccess(self, test: unittest.TestCase) -> None:
        super().addUnexpectedSuccess(test)
        self._tell("FAILED", test, ": it passed")

    def addSkip(self, test: unittest.TestCase, reason: str) -> None:
        super().addSkip(test, reason)
        self._tell("left out", test, f": {reason}")


def _each(suite: unittest.TestSuite) -> Iterator[unittest.TestCase]:
    """The tests of a suite and of those in it."""
    for it in suite:
        if isinstance(it, unittest.TestSuite):
            yield from _each(it)
        else:
            yield it


def run(folder: Path, top: Path, names: list[str], jobs: int = 1) -> int:
    """Runs the tests of a folder whose names have one of these names in them, all where there are none, so many at a
    time. Its modules are named from the top. Returns the status: 0 where some test was run and none failed."""
    found = _each(_Loader().discover(str(folder), "test_*.py", str(top)))
    chosen = [it for it in found if not names or any(name in it.id() for name in names)]
    suite = _SideBySide(chosen, jobs) if jobs > 1 else unittest.TestSuite(chosen)
    result = unittest.TextTestRunner(sys.stdout, verbosity=0, resultclass=_Result).run(suite)
    assert isinstance(result, _Result)
    print(f"{result.passed} passed, {result.failed} failed", flush=True)
    return 0 if result.testsRun and not result.failed else 1
