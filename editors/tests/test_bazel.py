"""The rules of Bazel, by Bazel itself where it is there."""
from __future__ import annotations

import shutil
import subprocess
import sys
import unittest

from tests.check_tool import LOOPS, SAFE, TOOL, TOP, UNSAFE, folder
from tests.program import program

BUILD = """load("//:imp.bzl", "imp_checked", "imp_verified")
imp_checked(name = "checked", srcs = ["src/a.imp", "src/b.imp"], daig_check = "{tool}")
imp_checked(name = "faulty", srcs = ["src/a.imp", "src/c.imp"], daig_check = "{tool}", flags = ["--dead"])
imp_verified(name = "verified", srcs = ["src/b.imp"], daig = "{daig}", domain = "interval")
imp_verified(name = "over", srcs = ["src/b.imp"], daig = "{daig}", flags = ["--budget", "1"])
"""


def test_bazel() -> None:
    """A file without findings is checked, a certificate that is written holds, and what is wrong ends the build."""
    bazel = shutil.which("bazel")
    if bazel is None:
        raise unittest.SkipTest("Bazel is not there")
    command = [bazel]
    with folder() as here:
        work, made = here / "work", here / "work/bazel-bin/src"
        (work / "src").mkdir(parents=True)
        tool = here / "daig-check"
        tool.write_text(f"#!/bin/sh\nDAIG_PROGRAM='{program()}' exec '{sys.executable}' '{TOOL}' --try 0 \"$@\"\n")
        tool.chmod(0o755)
        for name, text in (("a", SAFE), ("b", LOOPS), ("c", UNSAFE)):
            (work / f"src/{name}.imp").write_text(text)
        (work / "WORKSPACE").write_text("")
        (work / "BUILD").write_text(BUILD.format(tool=tool, daig=program()))
        shutil.copy(TOP / "editors/bazel/imp.bzl", work)

        def built(*words: str) -> subprocess.CompletedProcess[str]:
            """Runs Bazel, with its files in the folder."""
            whole = [*command, f"--output_user_root={here}/root", *words]
            return subprocess.run(whole, cwd=work, capture_output=True, text=True, timeout=600)

        try:
            done = built("build", "//:checked", "//:verified")
            assert done.returncode == 0, done.stderr
            assert {it.name for it in made.iterdir()} == {"a.checked", "b.checked", "b.cert", "b.verified"}, done.stderr
            done = built("build", "--keep_going", "//:faulty", "//:over")
            assert done.returncode != 0 and "src/c.imp:4:3: warning: the assertion may fail [assert]" in done.stderr, done.stderr
            assert "src/b.imp: no certificate: " in done.stderr and not (made / "c.checked").exists(), done.stderr
        finally:
            built("shutdown")
            subprocess.run(["chmod", "-R", "u+w", str(here)], check=False)
