"""What the tests themselves stand on: a failure is counted and named, and sessions and rows are compared."""
from __future__ import annotations

import contextlib
import io
import os
import subprocess
import sys
import tempfile
import unittest

import kit
import run_examples
import run_sessions
import test_all
from fake_kit import Scene
from tally import Tally


def ended(tally: Tally) -> tuple[int, str]:
    """The status, and the lines that are written at the end."""
    written = io.StringIO()
    with contextlib.redirect_stdout(written):
        status = tally.end()
    return status, written.getvalue()


def test_what_a_last_line_tells_is_counted() -> None:
    tally = Tally()
    tally.add_last_line("a", "words\n12 passed, 0 failed (4 kept)\n", 0)
    tally.add_last_line("b", "3 passed, 2 failed\n", 1)
    assert ended(tally) == (1, "failed: b (2)\n15 passed, 2 failed\n")
    tally = Tally()
    tally.add_last_line("a", "12 passed, 0 failed\n", 0)
    assert ended(tally) == (0, "12 passed, 0 failed\n")


def test_a_command_that_fails_without_a_line_is_a_failure() -> None:
    passed = "5 passed, 0 failed\n"
    for output, status in (("", 0), ("words\n", 0), (passed, 1), (f"{passed}Traceback\n", 1)):
        tally = Tally()
        tally.add_last_line("a", output, status)
        assert ended(tally)[0] == 1, (output, status)


def program(folder: str, text: str) -> str:
    """A program that writes a text whatever it reads."""
    path = f"{folder}/program"
    with open(path, "w") as out:
        out.write(f"#!/bin/sh\ncat >/dev/null\nprintf '%s\\n' '{text}'\n")
    os.chmod(path, 0o755)
    return path


SESSION = """Take `x.imp`:

    a source

and ask:

    $ daig serve x.imp
    {"do":"state"}        {"state":"x"}
    $ cat x.imp
    a source
"""


def test_a_session_is_run_and_compared() -> None:
    blocks = list(run_sessions.blocks(SESSION))
    assert [above for _, above, _ in blocks] == ["Take `x.imp`:", "and ask:"], blocks
    found = run_sessions.commands(blocks[1][0], blocks[1][2])
    assert [(it.number, it.words) for it in found] == [(7, "daig serve x.imp"), (9, "cat x.imp")], found
    with tempfile.TemporaryDirectory(prefix="session-") as folder:
        for text, is_right in (('{"state":"x"}', True), ('{"state":"y"}', False)):
            os.replace(program(folder, text), f"{folder}/daig")
            fault = found[0].fault(folder, f"{folder}:{os.environ['PATH']}")
            assert bool(fault) != is_right, fault


def test_a_row_is_run_and_compared() -> None:
    row = run_examples.Row(["# a remark", "$ daig batch f", ": a source", "< written", "? 0"])
    with tempfile.TemporaryDirectory(prefix="row-") as folder:
        assert row.fault(program(folder, "written")) == ""
        assert "in place of" in row.fault(program(folder, "other"))
        row.status = 3
        assert "ended with 0 in place of 3" in row.fault(program(folder, "written"))


def test_the_manual_pages_are_read_without_a_complaint() -> None:
    folder = f"{os.path.dirname(run_sessions.__file__)}/../docs/man"
    pages = sorted(os.listdir(folder))
    assert pages == ["daig-check.1", "daig-lsp.1", "daig.1"], pages
    for name in pages:
        try:
            words = ["groff", "-mdoc", "-Tutf8", "-ww", "-z", f"{folder}/{name}"]
            ran = subprocess.run(words, capture_output=True, text=True)
        except FileNotFoundError:
            raise unittest.SkipTest("there is no groff")
        assert not ran.stderr, ran.stderr


def suite(name: str, text: str, asks: bool = False, is_step: bool = False) -> test_all.Suite:
    return test_all.Suite(name, [sys.executable, "-c", text, test_all.PROGRAM], asks, is_step)


def told(suites: list[test_all.Suite], program: str) -> tuple[Tally, str]:
    """What a run over suites counts and writes."""
    tally, written = Tally(), io.StringIO()
    test_all.Run(tally, suites, lambda: program, written).run(2)
    return tally, written.getvalue()


ASKS = "import sys, os; print(sys.argv[1] == os.environ['DAIG_PROGRAM'] == 'made' and '2 passed, 0 failed')"


def test_suites_are_run_and_counted_and_those_that_fail_are_shown() -> None:
    suites = [
        suite("the build", "print('built')", is_step=True),
        suite("one that fails", "print('a fault'); print('3 passed, 1 failed'); raise SystemExit(1)"),
        suite("one that asks", ASKS, True),
        suite("one that is cut off", "print('all is well')"),
        suite("one that leaves out", "print('left out: x: there is no x'); print('1 passed, 0 failed')"),
    ]
    tally, written = told(suites, "made")
    assert (tally.passed, sorted(tally.failed)) == (7, ["one that fails", "one that is cut off"]), tally.failed
    for words in ("a fault\n", "== one that asks: 2 passed, 0 failed (", "all is well\n", "left out: x: there is no x\n"):
        assert words in written, written
    assert "built\n" not in written, written


def test_without_a_program_what_asks_it_fails() -> None:
    for text, made in (("raise SystemExit(1)", "made"), ("", "")):
        suites = [suite("the build", text, is_step=True), suite("one that asks", ASKS, True)]
        tally, written = told(suites, made)
        assert (tally.passed, tally.failed) == (0, ["the build"]) and "one that asks" not in written, written


def test_the_suites_are_all_there() -> None:
    names = [it.name for it in test_all.suites()]
    for crate in ("test_server", "test_session", "test_domains"):
        assert f"the tests of {crate}" in names, names
    words = [word for it in test_all.editor_suites() for word in it.words if word.startswith("test_")]
    files = [it for it in os.listdir(f"{kit.ROOT}/editors/tests") if it.startswith("test_") and it.endswith(".py")]
    assert sorted(words) == sorted(it[: -len("py")] for it in files), words


def test_words_that_test_does_not_take() -> None:
    with Scene() as it:
        it.run(f"{it.checkout}/test", "--quick").expect(2, "", "./test --all adds the gate")
        for words in (["x"], ["--all", "x"]):
            it.run(f"{it.checkout}/test", *words).expect(2, "", "usage: test [--all]")
