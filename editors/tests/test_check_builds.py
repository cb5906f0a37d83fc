"""Builds: what docs/CI.md shows, the hook of pre-commit, and make's rules for checks."""
from __future__ import annotations

import os
import re
import subprocess
import sys
from pathlib import Path

from tests.check_tool import LOOPS, NO_PROGRAM, SAFE, TOOL, TOP, UNSAFE, folder
from tests.program import program

PAGE = (TOP / "docs/CI.md").read_text()
HOOK = "git diff --cached"


def shell(command: str, where: Path, **more: str) -> subprocess.CompletedProcess[str]:
    """Runs a command of a shell, with daig-check on the PATH."""
    (where / ".bin").mkdir(exist_ok=True)
    tool = where / ".bin/daig-check"
    tool.write_text(f"#!/bin/sh\nexec '{sys.executable}' '{TOOL}' \"$@\"\n")
    tool.chmod(0o755)
    environment = {**os.environ, "DAIG_PROGRAM": program(), "PATH": f"{where}/.bin:{os.environ['PATH']}", **more}
    return subprocess.run(["sh", "-c", command], cwd=where, env=environment, capture_output=True, text=True, timeout=300)


def repository(where: Path) -> None:
    """Makes a repository of a folder, whose main branch has its files."""
    who = "git -c user.name=a -c user.email=b"
    done = shell(f"git init -q -b main && git add *.imp && {who} commit -q -m First && git branch origin/main", where)
    assert done.returncode == 0, done.stderr


def commands_of(*words: str) -> list[str]:
    """The commands of the page that have these words."""
    lines = [re.sub(r"^\s*(- )?(run: )?", "", it) for it in PAGE.splitlines()]
    return [it for it in lines if "daig-check --" in it and all(word in it for word in words)]


def test_recipes() -> None:
    """The commands of the page pass where nothing is new, and fail where something is."""
    assert len(commands_of()) == 5, commands_of()
    with folder(a_imp=UNSAFE, b_imp=SAFE) as here:
        repository(here)
        more = {"GITHUB_BASE_REF": "main"}
        for command in commands_of("--new"):
            assert shell(command, here, **more).returncode == 0, command
        (here / "b.imp").write_text(UNSAFE)
        for command in commands_of("--new"):
            done = shell(command, here, **more)
            assert done.returncode == 1, (command, done)
        assert re.search(r'<testsuite name="./b.imp" tests="\d" failures="1"', (here / "daig.xml").read_text())
        (whole,) = commands_of("sarif")
        assert shell(whole, here).returncode == 0 and "a.imp" in (here / "daig.sarif").read_text()
        (here / "c.imp").write_text(NO_PROGRAM)
        assert shell(whole, here).returncode != 0


def test_hooks() -> None:
    """Both hooks check what is about to be committed: files that are named, and no excluded ones."""
    (script,) = commands_of(HOOK)
    hook = dict(re.findall(r"^(?:- |  )(\w+): (.*)$", (TOP / ".pre-commit-hooks.yaml").read_text(), re.M))
    assert hook["id"] in PAGE and hook["language"] == "system" and re.search(hook["files"], "a/b.imp"), hook
    with folder(a_imp=SAFE, b_imp=UNSAFE) as here:
        repository(here)
        assert shell(script, here).returncode == 0, "nothing is about to be committed"
        (here / "a.imp").write_text(UNSAFE)
        assert shell(f"git add a.imp && {script}", here).returncode == 123
        assert shell(f"{hook['entry']} a.imp", here).returncode == 1
        (here / "daig.toml").write_text('exclude = ["a.imp"]')
        assert shell(f"{hook['entry']} a.imp", here).returncode == 0


def test_make_checks() -> None:
    """make checks what changed alone; a finding ends the build, with its line; clean-imp takes away what was made."""
    with folder(a_imp=SAFE, b_imp=UNSAFE, c_imp=NO_PROGRAM, d_imp=LOOPS) as here:
        (here / "Makefile").write_text(f"include {TOP}/editors/imp.mk\nall: a.checked b.checked c.checked d.checked\n")
        done = shell(f"make -k DAIG={program()}", here)
        assert done.returncode != 0 and (here / "a.checked").exists() and not (here / "b.checked").exists(), done
        assert "b.imp:4:3: error: the assertion fails with input 0 [assert]" in done.stderr, done
        assert "c.imp:2:3: error: " in done.stderr and (here / "d.checked").exists(), done
        (here / "b.imp").write_text(SAFE)
        before = (here / "a.checked").stat().st_mtime_ns
        done = shell(f"make b.checked a.checked DAIG={program()}", here)
        assert done.returncode == 0 and (here / "a.checked").stat().st_mtime_ns == before, done
        done = shell(f"make c.cert d.cert -k DAIG={program()} DAIG_DOMAIN=interval 'DAIG_FLAGS=--budget 1'", here)
        assert "c.imp:2:3: error: " in done.stderr and "c.imp: no certificate: " in done.stderr, done
        assert "d.imp:5:3: warning: the loop did not settle within its budget of 1 round" in done.stderr, done
        (here / "d.cert").write_text("")
        done = shell(f"make d.verified DAIG={program()}", here)
        assert "d.cert does not hold of d.imp: " in done.stderr and "the loop is while (i < 10) {" in done.stderr, done
        assert shell("make clean-imp", here).returncode == 0 and not list(here.glob("*.checked"))
