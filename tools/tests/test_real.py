"""The real kit on small programs: a whole build without proofs of one that does not prove, and a whole proof of one that does."""
from __future__ import annotations

import os
import shutil
import subprocess
import tempfile
import unittest

import kit
import llvm_parts

PROGRAM = """//! Adds the length of each line to 200, in eight bits.
#![tactic(auto)]
use std::io;

fn main(rt: HostRuntime) -> io::Result<()> {
    for line in rt.lines(rt.alloc()) {
        let line = line?;
        let sum = 200u8 + (line.as_str().len() as u8);
        println!(rt; "{sum}")?;
    }
    Ok(())
}
"""


DOUBLED = """//! Twice a number.
#![tactic(auto)]

ghost use Rattle.std.specs.Prelude.{◌≡◌, ◌<◌, ◌+◌};

/// Twice a number below 1,000.
pub fn doubled(number: u32) -> u32
    requires small { number < 1000 }
    ensures twice { result ≡ number + number }
{
    number + number
}
"""
TWICE = """//! Writes twice 21.
#![tactic(auto)]

use doubles::doubled;
use std::io;

fn main(rt: HostRuntime) -> io::Result<()> {
    let twice = doubled(21);
    println!(rt; "{twice}")?;
    Ok(())
}
"""


def checkout(folder: str, texts: dict[str, str]) -> None:
    """A checkout of other crates: our commands and tools over these texts, by their paths."""
    for name in ("daig", "prove", "README.md"):
        shutil.copy(f"{kit.ROOT}/{name}", folder)
    shutil.copytree(f"{kit.ROOT}/tools", f"{folder}/tools", ignore=shutil.ignore_patterns("__pycache__"))
    for path, text in texts.items():
        os.makedirs(os.path.dirname(f"{folder}/{path}"), exist_ok=True)
        with open(f"{folder}/{path}", "w") as out:
            out.write(text)


def run(*words: str, given: str = "") -> subprocess.CompletedProcess[str]:
    return subprocess.run(words, capture_output=True, text=True, input=given)


def test_the_real_kit_builds_a_program_whose_broken_check_ends_it() -> None:
    if not shutil.which("rt"):
        raise unittest.SkipTest("there is no kit")
    with tempfile.TemporaryDirectory(prefix="real-") as folder:
        checkout(folder, {"crates.txt": "daig:\n", "crates/daig/src/main.rt": PROGRAM})
        ran = run(f"{folder}/daig", given="four\n")
        assert (ran.returncode, ran.stdout) == (0, "204\n"), ran
        ran = run(f"{folder}/daig", given="four\n" + "x" * 60 + "\n")
        assert (ran.returncode, ran.stderr) == (llvm_parts.BROKEN_STATUS, llvm_parts.BROKEN_WORDS), ran
        assert "260" not in ran.stdout and "4\n" not in ran.stdout.replace("204\n", ""), ran


def test_the_real_kit_proves_a_program_which_then_runs_and_no_wrong_one() -> None:
    if not shutil.which("rt"):
        raise unittest.SkipTest("there is no kit")
    with tempfile.TemporaryDirectory(prefix="real-") as folder:
        library = "crates/doubles/src/lib.rt"
        program = {"crates/daig/src/main.rt": TWICE, "crates/daig/stdout": "42\n"}
        checkout(folder, {"crates.txt": "doubles:\ndaig: doubles\n", library: DOUBLED, **program})
        ran = run(f"{folder}/prove", "--jobs", "2")
        assert ran.returncode == 0 and "2 of 2 crates done" in ran.stderr and "proved in" in ran.stderr, ran
        ran = run(f"{folder}/daig")
        assert (ran.returncode, ran.stdout, ran.stderr) == (0, "42\n", ""), ran
        assert "the proved program is there and fresh" in run(f"{folder}/prove").stderr
        with open(f"{folder}/{library}", "w") as out:
            out.write(DOUBLED.replace("    number + number\n}", "    number + 1\n}"))
        ran = run(f"{folder}/prove", "--jobs", "2")
        assert ran.returncode == 1 and "not proved" in ran.stderr, ran
