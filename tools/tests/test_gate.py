"""The gate: what it lets pass and we do not, and where its time goes."""
from __future__ import annotations

import contextlib
import os
import tempfile

import gate
import gate_times
import kit_work
from fake_kit import Scene

LOG = """\
0.0 | rt: old_low is kept: an earlier run on this machine proved the same files over the same libraries
10.0 proof low 10.0
10.1 | == low
10.1 | rt: low proved
12.0 | rt: tiny proved
40.0 proof side 30.0
40.1 | rt: side proved
60.0 proof top 20.0
65.0 proof top 5.0
65.1 | rt: top proved
65.2 | rt: low: trying its must-fail edits (2)
70.0 edits low 3.0
71.0 edits low 1.5
72.0 edits top 9.0
80.0 tests top 7.0
80.1 | rt: top: its tests are proved
80.2 | rt: top: 1 of its 3 must-fail edits were tried by an earlier run on this machine, and nothing has changed
81.0 sources daig 4.0
"""
NEEDS: gate_times.Needs = {"old_low": [], "low": ["old_low"], "tiny": ["low"], "side": ["low"], "top": ["tiny", "low"]}
SECONDS = {"old_low": 8.0, "low": 10.0, "tiny": 0.0, "side": 30.0, "top": 25.0}


def test_the_log_tells_what_each_crate_took() -> None:
    times = gate_times.read(LOG.splitlines())
    assert times == {
        "low": {"proof": 10.0, "edits": 4.5},
        "tiny": {"proof": 0.0},
        "side": {"proof": 30.0},
        "top": {"proof": 25.0, "tests": 7.0},
    }, times


def test_what_was_kept_is_told_by_an_earlier_run() -> None:
    with tempfile.TemporaryDirectory(prefix="gate-") as folder:
        log = f"{folder}/{gate_times.LOG}"
        with open(log, "w") as out:
            out.write("8.0 proof old_low 8.0\n8.1 | rt: old_low proved\n9.0 edits top 30.0\n")
        gate_times.known(folder, log)
        with open(log, "w") as out:
            out.write(LOG)
        found = gate_times.known(folder, log)
        lines = gate_times.table(found, NEEDS)
        rows = {line.split()[0]: line.split()[1:] for line in lines[1:-1]}
        assert rows["old_low"] == ["8*", "-", "-"] and rows["top"] == ["25", "30*", "7"], lines
        assert rows["all"] == ["73", "34", "7"] and "in an earlier run" in lines[-1], lines
        assert [line.split()[0] for line in lines[1:3]] == ["side", "top"], lines


def test_the_longest_chain_is_found() -> None:
    assert gate_times.longest(NEEDS, SECONDS) == (48.0, ["old_low", "low", "side"])
    assert gate_times.chain_line(NEEDS, SECONDS) == "48 s of 73 s: old_low 8, low 10, side 30"
    with contextlib.suppress(gate_times.Unclear):
        gate_times.longest({"a": ["b"], "b": ["a"]}, {})
        raise AssertionError("a circle has no longest chain")


def chain(*words: str) -> tuple[float, list[str]]:
    return gate_times.longest(*gate_times.changed(list(words), NEEDS, SECONDS))


def test_the_chain_is_foretold_when_crates_are_merged_or_split() -> None:
    assert chain("--merge", "both=low+side") == (73.0, ["old_low", "both", "tiny", "top"])
    assert chain("--split", "side=one:0.4+two:0.6") == (48.0, ["old_low", "low", "one", "two"])
    apart = "--needs", "two=old_low", "--split", "side=one:0.4+two:0.6"
    assert chain(*apart) == (43.0, ["old_low", "low", "tiny", "top"])
    assert chain("--split", "low=low:0.5+laws:0.5", "--needs", "side=laws") == (48.0, ["old_low", "low", "laws", "side"])


def test_a_change_that_cannot_be_is_refused() -> None:
    for words in (
        ["--merge", "both=old_low+top"],
        ["--merge", "both=low+gone"],
        ["--split", "side=one:0.4+two:0.4"],
        ["--needs", "gone=low"],
    ):
        try:
            chain(*words)
        except gate_times.Unclear:
            continue
        raise AssertionError(words)


GATE = """\
rt: base_values proved
rt: must-fail base_values/right.edit: refused, as it must be
rt: must-fail base_values/wrong.edit: BAD EDIT: an 'old:' text is in src/lib.rt 0 times, and not once
rt: crates/base_hash/must-fail/other.txt: BAD EDIT: an edit stands right in must-fail/
3 passed, 0 failed
"""


def test_a_bad_edit_fails_the_gate_which_tells_its_times() -> None:
    with Scene() as it:
        with open(f"{it.kit}/gate", "w") as out:
            out.write(GATE)
        ran = it.run("python3", f"{it.checkout}/tools/gate.py", FAKE_SECONDS="4")
        assert ran.status == 1 and ran.written.endswith("\n3 passed, 2 failed\n"), (ran.written, ran.said)
        for words in (
            "rt: base_values proved\n",
            "FAILED must-fail base_values/wrong.edit: a bad edit: an 'old:' text is in src/lib.rt 0 times",
            "failed: must-fail crates/base_hash/must-fail/other.txt\n",
            "The longest chain of proofs: ",
            "daig: the gate",
        ):
            assert words in ran.written + ran.said, (words, ran.written, ran.said)
        with open(f"{it.quick}/{gate_times.LOG}") as text:
            seconds = gate_times.read(text)["base_values"][kit_work.PROOF]
        assert 2 < seconds < 60, seconds
        with open(f"{it.kit}/gate", "w") as out:
            out.write("rt: base_values proved\n3 passed, 0 failed\n")
        ran = it.run("python3", f"{it.checkout}/tools/gate.py")
        assert ran.status == 0 and ran.written.endswith("\n3 passed, 0 failed\n"), (ran.written, ran.said)


def test_a_bad_edit_is_known_in_each_form() -> None:
    name = "dom_interval/join.edit"
    for line in (
        f"rt: must-fail {name}: BAD EDIT: it did not reach the prover; the first lines of what it said:\n",
        f"rt: must-fail {name}: BAD EDIT: the prover cannot read the edited text, so no contract was tried: x\n",
    ):
        found = gate.BAD.match(line)
        assert found and found[1] == name, line
    for line in (f"rt: must-fail {name}: refused, as it must be: a BAD EDIT\n", "rt: note: bad must-fail edits: 1\n"):
        assert not gate.BAD.match(line), line


def test_the_log_has_the_works_that_ended() -> None:
    with tempfile.TemporaryDirectory(prefix="gate-") as folder:
        with open(f"{folder}/log", "w") as out:
            log = gate.Log(out)
            works = {kit_work.Work(number, "0", "a", kit_work.EDITS) for number in (1, 2)}
            log.see(works)
            assert log.doing() == "in work: a (edits), a (edits)", log.doing()
            log.see(set())
            log.said("rt: a proved")
        with open(f"{folder}/log") as text:
            lines = text.read().splitlines()
    assert len(lines) == 3 and lines[2].endswith(" | rt: a proved"), lines
    assert gate_times.read(lines)["a"] == {"edits": 0.0, "proof": 0.0}, lines
    assert os.path.basename(gate_times.LOG) == gate_times.LOG
