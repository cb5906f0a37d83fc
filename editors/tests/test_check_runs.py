"""Runs that fail, certificates, the editor's findings beside those of daig-check, and builds by make."""
from __future__ import annotations

import os
import pty
import subprocess
import sys
from pathlib import Path
from random import Random

from daig_editor.checking.program import NoProgramFound, launched_program
from tests.check_tool import EXAMPLES, LOOPS, NO_PROGRAM, SAFE, TOP, UNSAFE, check, check_process, dying, folder
from tests.client import Client
from tests.program import changes, program
from tests.random_sources import SourceMaker

OVERFLOW = (
    "proc main() {\n  var i: int;\n  var a: array;\n  a = array 3;\n  i = input;\n"
    "  i = a[i + 9223372036854775807 + 1];\n}\n"
)


def test_try() -> None:
    """A check that fails in a run is an error with its inputs, in every format; the status is that of a finding."""
    with folder(a_imp=UNSAFE, b_imp=OVERFLOW, c_imp=SAFE.replace("i == 3", "i == 4")) as here:
        found = check("--try", 4, "--format", "brief", "a.imp", "c.imp", where=here)
        lines = found.out.splitlines()
        assert found.status == 1 and lines == [
            "a.imp:4:3: error: the assertion fails with input 0 [assert]",
            "c.imp:4:3: error: the assertion fails in each run [assert]",
        ], found
        assert check("--try", 4, "--format", "json", "a.imp", where=here).objects[0]["inputs"] == [0]
        assert " warning: " in check("--try", 0, "a.imp", where=here).out
        # Of the runs that end at this statement some end by an overflow: that is no failed check, and told apart.
        found = check("--try", 8, "--format", "json", "b.imp", where=here)
        told = {str(it["rule"]): it["inputs"] for it in found.objects}
        inputs = told["bounds"]
        assert told == {"bounds": [-1], "overflow": [0]}, found.out
        request = f'{{"do":"run","inputs":{inputs},"fuel":100}}\n'.encode()
        answer = subprocess.run(
            [program(), "serve", "b.imp"], input=request, cwd=here, capture_output=True, check=True
        ).stdout
        assert b'"fault":"index"' in answer, answer
        client = Client({"daig": program(), "runs": 8})
        client.open("file:///b.imp", OVERFLOW)
        told = client.wait(lambda it: "with input" in str(it.get("params", {}).get("diagnostics", "")))
        assert "the index is outside the array with input -1" in str(told), told
        client.close()
        over = check(
            "--try", 4, "--budget", 1, "--domain", "interval", "-", where=here, text=LOOPS.replace("i == 10", "i == 9")
        )
        assert (
            "error: the assertion fails in each run" in over.out and "2 checks after it are not known" in over.out
        ), over


def test_runs_by_default() -> None:
    """Runs are tried where nothing is said; a program that always fails never passes, whatever the fault."""
    begin = "proc main() {\n  var x: int;\n  var a: array;\n"
    with folder(a_imp=UNSAFE) as here:
        found = check_process("--format brief a.imp", here)
        assert found.out == "a.imp:4:3: error: the assertion fails with input 0 [assert]\n", found
        for line, rule, words in (
            ("x = 10 / x;", "zero", "a number is divided by zero in each run"),
            ("x = 1 % x;", "zero", "a number is divided by zero in each run"),
            ("x = 9223372036854775807 + 1;", "overflow", "a number passes the limits of 64 bits in each run"),
            ("a = array 0 - 1;", "length", "the length of the array is below 0 or above 1,000,000 in each run"),
            ("a = array 3; x = 10 / x; a[7] = 1; assert 1 == 2;", "zero", "a number is divided by zero in each run"),
        ):
            (here / "b.imp").write_text(f"{begin}  {line}\n}}\n")
            found = check_process("--format brief b.imp", here)
            assert found.status == 1 and f": error: {words} [{rule}]\n" in found.out, (line, found)
            assert check_process("--try 0 --faults checks b.imp", here).status == 0, "reports do not tell it"
        ignored = f"{begin}  x = 10 / x; // daig: ignore[zero] as it is to be\n}}\n"
        assert check("--try", 1, "-", where=here, text=ignored).status == 0
        fails = UNSAFE.replace("i = input", "i = 4")
        found = check("--format", "json", "--faults", "checks", "-", where=here, text=fails)
        assert found.objects[0]["notes"] == ["certain: no run that comes here goes on"], found.out


def test_inputs() -> None:
    """A run of one's own inputs is tried first."""
    text = "proc main() {\n  var i: int;\n  i = input;\n  i = input;\n  assert i * i != 1522756;\n}\n"
    with folder(a_imp=text) as here:
        assert " warning: " in check("--try", 32, "a.imp", where=here).out
        found = check("--inputs", "7,-1234,9", "--format", "json", "a.imp", where=here)
        assert found.status == 1 and found.objects[0]["inputs"] == [7, -1234], found
        assert " warning: " in check("--inputs", "", "a.imp", where=here).out
        for words in ("a", "1,,2", "9223372036854775808"):
            assert check("--inputs", words, "a.imp", where=here).status == 2, words


def test_certificates() -> None:
    """Certificates are written, found to hold, and written anew where they are stale, bad or gone."""
    with folder(a_imp=LOOPS, b_imp=NO_PROGRAM, d_imp=UNSAFE) as here:
        found = check("--cert", "kept", "a.imp", where=here)
        assert found.status == 0 and "; certificates: 0 hold, 2 written" in found.err and not found.out, found
        names = [here / "kept/a.octagon.cert", here / "kept/a.listseg.cert"]
        before = [it.read_bytes() for it in names]
        assert check("--cert", "kept", "./a.imp", where=here).err.endswith("; certificates: 2 hold, 0 written\n")
        for text, why in ((b"{", "its line 1 is bad"), (b"", "it says nothing of the loop at line 5")):
            names[0].write_bytes(text)
            found = check("--cert", "kept", "a.imp", where=here)
            assert (
                found.status == 0 and f"note: the octagon certificate is written anew: {why} [certificate]" in found.out
            ), found
            assert [it.read_bytes() for it in names] == before and "1 hold, 1 written" in found.err
        (here / "a.imp").write_text(LOOPS.replace("10", "12"))
        found = check("--cert", "kept", "a.imp", where=here)
        assert found.status == 0 and "is written anew: " in found.out, found
        found = check("--cert", "kept", "--domain", "interval", "--budget", 1, "a.imp", where=here)
        assert (
            found.status == 1 and "no interval certificate holds: the loop at line 5 used up its budget" in found.out
        ), found
        assert check("--cert", "kept", "b.imp", where=here).status == 2 and not (here / "kept/b.octagon.cert").exists()
        assert sorted(it.name for it in (here / "kept").iterdir()) == ["a.listseg.cert", "a.octagon.cert"]
        assert check("--cert", "d.imp", "a.imp", where=here).status == 2
        found = check("--cert", "kept", "--domain", "interval+shapes", "a.imp", where=here)
        assert found.status == 2 and "the shapes certificate cannot be kept: there are those of interval, " in found.out, found
        os.mkfifo(here / "kept/d.octagon.cert")
        found = check("--cert", "kept", "d.imp", where=here)
        assert found.status == 2 and "is no file" in found.out, found
        found = check("--cert", "new", "--program", dying(here, 9, 3), "a.imp", where=here)
        assert found.status == 2 and "the octagon certificate cannot be kept: daig cert: " in found.out, found
        assert not list((here / "new").iterdir())


def test_no_two_files_share_a_certificate() -> None:
    """Files whose paths differ in the ending alone, or in where they begin, have certificates of their own."""
    other = LOOPS.replace("10", "12")
    with folder(a_imp=LOOPS, a=other) as here:
        (here / "a.octagon").write_text(LOOPS)
        (here / "in").mkdir()
        below = here / "in" / here.relative_to("/")
        below.mkdir(parents=True)
        (below / "a.imp").write_text(other)
        both: tuple[tuple[Path, list[object]], ...] = (
            (here, ["a.imp", "a", "a.octagon"]), (here / "in", [below / "a.imp", here / "a.imp"])
        )
        for where, files in both:
            many = 2 * len(files)
            found = check("--cert", here / "kept", *files, where=where)
            assert found.err.endswith(f"; certificates: 0 hold, {many} written\n"), found
            found = check("--cert", here / "kept", *files, where=where)
            assert found.err.endswith(f"; certificates: {many} hold, 0 written\n"), found


def test_examples_are_certified() -> None:
    """The certificates of all examples hold, by both parts of the domain."""
    with folder() as here:
        found = check("--cert", here, EXAMPLES.relative_to(TOP), where=TOP)
        assert found.err.endswith("; certificates: 0 hold, 28 written\n"), found
        found = check("--cert", here, EXAMPLES.relative_to(TOP), where=TOP)
        assert found.err.endswith("; certificates: 28 hold, 0 written\n"), found


def test_editor_finds_the_same() -> None:
    """The findings are those that the editor shows, at the same places."""
    random = Random(7)
    maker = SourceMaker(random, 10)
    client = Client({"daig": program(), "runs": 0})
    uri = "file:///made.imp"
    client.open(uri, SAFE)
    for version in range(2, 2 + max(changes(200) // 20, 5)):
        text = maker.source(random.randrange(3)).replace("skip;", "skip" if version % 5 == 0 else "skip;")
        client.change(uri, version, [{"text": text}])
        with folder(a_imp=text) as here:
            found = check("--format", "json", "-", where=here, text=text).objects
        starts = [(it["range"]["start"], it.get("code", "source")) for it in client.diagnostics(version)]
        shown = sorted((at["line"] + 1, at["character"] + 1, code) for at, code in starts)
        assert shown == sorted((it["line"], it["column"], it["rule"]) for it in found), (text, shown, found)
    client.close()


def test_make() -> None:
    """make -j8 verifies 200 files and says which are broken or stale; after that it does what changed alone."""
    texts = {f"f{k}_imp": LOOPS.replace("10", str(k + 1)) for k in range(200)}
    with folder(**texts) as here:
        (here / "Makefile").write_text(
            f"include {TOP}/editors/imp.mk\nall: $(patsubst %.imp,%.verified,$(wildcard *.imp))\n"
        )
        (here / "broken.imp").write_text(NO_PROGRAM)
        stale = here / "stale.cert"
        (here / "stale.imp").write_text(LOOPS)
        stale.write_text(
            subprocess.run(
                [program(), "cert", "--domain", "octagon", "f3.imp"], cwd=here, capture_output=True, text=True
            ).stdout
        )
        status, said = _make(here)
        assert (
            status != 0 and "broken.imp: no certificate: " in said and "stale.cert does not hold of stale.imp: " in said
        ), said
        assert len(list(here.glob("f*.verified"))) == 200 and not (here / "stale.verified").exists()
        assert not (here / "broken.cert").exists() and not list(here.glob("*.new"))
        (here / "broken.imp").write_text(SAFE)
        stale.unlink()
        assert _make(here)[0] == 0 and len(list(here.glob("*.verified"))) == 202
        times = {it: it.stat().st_mtime_ns for it in here.glob("*.verified")}
        changed = here / "f7.imp"
        changed.write_text(LOOPS)
        assert _make(here) == (0, "")
        made = [it.name for it in here.glob("*.verified") if it.stat().st_mtime_ns != times[it]]
        assert made == ["f7.verified"], made
        over = _make(here, "-B", "f7.verified", "DAIG_DOMAIN=interval", "DAIG_FLAGS=--budget 1")
        assert over[0] != 0 and "f7.imp: no certificate: " in over[1] and '"over"' in over[1], over


def _make(where: Path, *words: str) -> tuple[int, str]:
    """Runs make on all files; answers its status, and what the rules say."""
    command = ["make", "-k", "-j8", f"DAIG={program()}", *(words or ["all"])]
    done = subprocess.run(command, cwd=where, capture_output=True, text=True, timeout=600)
    said = [it for it in (done.stdout + done.stderr).splitlines() if not it.startswith("make")]
    return done.returncode, "\n".join(said)


def test_program_of_a_checkout() -> None:
    """The program that the launcher starts is looked for once, and built once where it is not there."""
    with folder() as here:
        (here / "tools").mkdir()
        (here / "daig").write_text("#!/bin/sh\necho building >>built\ntouch daig.built\nexit 3\n")
        (here / "daig").chmod(0o755)
        assert launched_program(str(here)) == str(here / "daig")
        (here / "tools/places.sh").write_text('[ "$2" = quick ] && [ -e "$1/daig.built" ] && echo "$1/program"\n')
        before = os.getcwd()
        os.chdir(here)
        try:
            assert [launched_program(str(here)) for _ in range(2)] == [str(here / "program")] * 2
            assert (here / "built").read_text() == "building\n"
            (here / "daig.built").unlink()
            (here / "daig").write_text("#!/bin/sh\nexit 1\n")
            try:
                raise AssertionError(launched_program(str(here)))
            except NoProgramFound as why:
                assert "has not built the program" in str(why)
        finally:
            os.chdir(before)


def test_progress() -> None:
    """On a terminal progress is shown and taken away again, and the report has colours; elsewhere neither is."""
    with folder(a_imp=UNSAFE, b_imp=SAFE) as here:
        ours, theirs = pty.openpty()
        environment = {**os.environ, "DAIG_PROGRAM": program(), "TERM": "xterm"}
        environment.pop("NO_COLOR", None)
        words = [sys.executable, str(TOP / "daig-check"), "--try", "0", "a.imp", "b.imp"]
        with subprocess.Popen(words, cwd=here, env=environment, stdin=theirs, stdout=theirs, stderr=theirs) as process:
            assert process.wait(60) == 1
        os.close(theirs)
        seen = os.read(ours, 65_536).decode()
        os.close(ours)
        assert "\r\x1b[K[2/2] " in seen and "\x1b[1;35mwarning:\x1b[0m" in seen, seen
        summary = "2 files, 2 checks: 1 safe, 1 may fail, 0 never reached; no run can fail in b.imp"
        assert seen.endswith(f"\r\x1b[K{summary}\r\n"), seen
        assert "\x1b" not in "".join(map(str, check("a.imp", where=here)))
