"""All faults in daig-check: their levels and order, what becomes of them by a change, and where no run can fail."""
from __future__ import annotations

import json
from pathlib import Path

from tests.check_tool import DEAD, EXAMPLES, LOOPS, OLDER, SAFE, UNSAFE, Ran, check, folder, script
from tests.program import program

BEGIN = "proc main() {\n  var x: int;\n  var y: int;\n  var a: array;\n  x = input;\n"
# A program of each rule: what is certain, what may come, and sums that may pass the limits.
MIXED = f"{BEGIN}  y = x + 1;\n  y = y * x;\n  y = 10 / x;\n  a = array x;\n  if (x > 5) {{\n    y = 3;\n    y = 1 / (y - 3);\n  }}\n  y = x - y;\n}}\n"


def brief(text: str, *words: object, where: Path) -> list[str]:
    """What is told of a text in a line each, without the name of the file."""
    return [it.removeprefix("<stdin>:") for it in check("--format", "brief", *words, "-", where=where, text=text).out.splitlines()]


def test_levels_and_order() -> None:
    """What is certain is told first; numbers that may pass their limits come last, as one note, and do not count."""
    with folder() as here:
        assert brief(MIXED, where=here) == [
            "12:5: error: a number is divided by zero in every run that comes here [zero]",
            "8:3: warning: the divisor may be zero [zero]",
            "9:3: warning: the length of the array may be below 0 or above 1,000,000 [length]",
            "6:3: note: a number may pass the limits of 64 bits here and at 1 more statement [overflow]",
        ]
        told = check("-", where=here, text=MIXED).out.splitlines()
        assert told[-1] == "      = lines 6, 7", told
        assert not any("certain" in it for it in told[:4]), "its words say it"
        objects = check("--format", "json", "-", where=here, text=MIXED).objects
        assert [(it["line"], it["level"]) for it in objects if it["rule"] == "overflow"] == [(6, "note"), (7, "note")]
        slight = f"{BEGIN}  y = x + 1;\n}}\n"
        assert check("-", where=here, text=slight).status == 0
        assert check("--faults", "strict", "-", where=here, text=slight).status == 1
        assert brief(slight, "--faults", "strict", where=here) == [
            "6:3: warning: a number may pass the limits of 64 bits [overflow]"
        ]
    for value, status in (("strict", 1), ("all", 0), ("most", 2)):
        with folder(a_imp=slight) as here:
            (here / "daig.toml").write_text(f'faults = "{value}"\n')
            found = check("a.imp", where=here)
            assert found.status == status, found
            assert check("--faults", "checks", "a.imp", where=here).out == ""
    assert "faults: one of all, strict, checks is wanted" in found.err, found


def test_runs() -> None:
    """A run that ends by any fault is an error with its inputs, told once; what ends every run says so."""
    with folder() as here:
        told = brief(MIXED, "--try", 32, where=here)
        assert told == [
            "6:3: error: a number passes the limits of 64 bits with input 9223372036854775807 [overflow]",
            "7:3: error: a number passes the limits of 64 bits with input -9223372036854775808 [overflow]",
            "8:3: error: a number is divided by zero with input 0 [zero]",
            "9:3: error: the length of the array is below 0 or above 1,000,000 with input -1 [length]",
            "12:5: error: a number is divided by zero with input 10 [zero]",
        ], told
        certain = check("--format", "json", "--try", 32, "-", where=here, text=f"{BEGIN}  y = x / 0;\n  y = 4;\n}}\n").objects
        assert certain[0]["inputs"] == [0] and certain[0]["notes"] == ["certain: no run that comes here goes on"], certain
        assert brief(f"{BEGIN}  y = (x + 1) / 0;\n}}\n", where=here) == [
            "6:3: error: a number is divided by zero, or another fault comes first, in every run that comes here [zero]",
            "6:3: note: a number may pass the limits of 64 bits [overflow]",
        ]


def test_conditions() -> None:
    """What a condition evaluates is judged where it is: that of a loop at its head."""
    with folder() as here:
        text = f"{BEGIN}  if (10 / x > 2) {{\n    x = 1;\n  }}\n  y = 5;\n  while (10 / y > 0) {{\n    y = y - 1;\n  }}\n}}\n"
        told = brief(text, "--select", "zero", where=here)
        assert told == [f"{line}:3: warning: the divisor may be zero [zero]" for line in (6, 10)], told
        known = check("--format", "json", "-", where=here, text=text).objects[1]["known"]
        assert "y ≤ 5" in str(known) and "y = 5" not in str(known), known


def test_one_finding_of_a_statement_that_is_never_reached() -> None:
    """It is told once, by the rule of its check where it has one."""
    with folder() as here:
        text = f"{BEGIN}  if (1 > 2) {{\n    a[x + 1] = x / 3;\n    y = y + 1;\n  }}\n}}\n"
        objects = check("--format", "json", "-", where=here, text=text).objects
        assert [(it["line"], it["rule"], it["level"]) for it in objects] == [(7, "bounds", "note"), (8, "overflow", "note")]
        assert check("--dead", "-", where=here, text=text).status == 1


def test_checks_alone() -> None:
    """`--faults checks` tells what reports tell, and fingerprints of checks are the same in both."""
    with folder(a_imp=MIXED, b_imp=UNSAFE, c_imp=DEAD) as here:
        assert check("--faults", "checks", "a.imp", where=here).out == ""
        found = [check("--faults", it, "--format", "json", "b.imp", "c.imp", where=here) for it in ("all", "checks")]
        checks = [[it["fingerprint"] for it in one.objects if it["rule"] == "assert"] for one in found]
        assert checks[0] == checks[1] and len(checks[0]) == 2, checks
        assert "no run can fail" not in check("--faults", "checks", "c.imp", where=here).err


def test_select_and_ignore() -> None:
    """Rules are chosen and ignored as others are."""
    with folder() as here:
        assert [it.split()[-1] for it in brief(MIXED, "--select", "zero,length", where=here)] == ["[zero]", "[zero]", "[length]"]
        ignoring = MIXED.replace("  y = 10 / x;", "  y = 10 / x; // daig: ignore[zero] as it is").replace(
            "  a = array x;", "  // daig: ignore[length,overflow]\n  a = array x;"
        )
        told = brief(ignoring, where=here)
        assert not any(it.startswith(("8:", "10:")) for it in told), told
        assert "9:3: note: nothing to ignore: no finding of overflow stands here [ignore]" in told, told


def test_new_by_a_change() -> None:
    """With an old text, what could not come before is told before the rest, and a sum that may overflow is a warning."""
    old = f"{BEGIN}  if (x < 0 || x > 9) {{\n    x = 1;\n  }}\n  y = x + y;\n  a = array x;\n}}\n"
    new = old.replace("x > 9", "x > 9223372036854775806")
    with folder(old_imp=old, new_imp=new) as here:
        assert check("old.imp", where=here) == (0, "", "1 file, 2 checks: 2 safe, 0 may fail, 0 never reached; no run can fail\n")
        found = check("--format", "brief", "--against", "old.imp", "new.imp", where=here)
        words = [it.removeprefix("new.imp:") for it in found.out.splitlines()]
        assert words[0] == "10:3: warning: the length of the array may be below 0 or above 1,000,000 [length]", words
        assert all("[change]" in it for it in words[1:]), words
        new = old.replace("y = x + y", "y = x + 9223372036854775807 - y")
        (here / "new.imp").write_text(new)
        found = check("--against", "old.imp", "--new", "new.imp", where=here)
        assert found.status == 1 and found.out.startswith("new.imp:9:3: warning: a number may pass the limits"), found
        assert "      = before the change: safe" in found.out, found
        (here / "old.imp").write_text(new)
        assert check("--against", "old.imp", "--new", "new.imp", where=here).status == 0


def test_new_by_a_baseline() -> None:
    """A sum that a baseline of all faults has not is a warning; one of checks alone says nothing of it."""
    text = f"{BEGIN}  y = x + 1;\n}}\n"
    with folder(a_imp=text) as here:
        for faults in ("all", "checks"):
            check("--faults", faults, "--format", "sarif", "--output", f"{faults}.sarif", "a.imp", where=here)
        assert check("--baseline", "all.sarif", "a.imp", where=here)[:2] == (0, "")
        (here / "a.imp").write_text(text.replace("}\n", "  y = x - 7;\n}\n"))
        found = check("--baseline", "all.sarif", "--format", "brief", "a.imp", where=here)
        assert found[:2] == (1, "a.imp:7:3: warning: a number may pass the limits of 64 bits [overflow]\n"), found
        assert check("--baseline", "checks.sarif", "a.imp", where=here).status == 0


def test_no_run_can_fail() -> None:
    """It is said of each file where nothing may come, in all procedures; in the summary, in SARIF, HTML and JUnit."""
    unused = "proc f(x: int) -> r: int {\n  r = x / 0;\n}\n" + SAFE
    with folder(a_imp=SAFE, b_imp=UNSAFE, c_imp=unused, d_imp=LOOPS) as here:
        found = check("--try", 4, "a.imp", "b.imp", "c.imp", "d.imp", where=here)
        assert found.err.endswith("; no run can fail in a.imp, d.imp\n"), found.err
        assert check("a.imp", where=here).err.endswith("; no run can fail\n")
        for words in ("--budget 1 --domain interval d.imp", "--faults checks a.imp", "b.imp", "c.imp"):
            assert "no run can fail" not in check(*words.split(), where=here).err, words
        log = json.loads(check("--format", "sarif", "a.imp", "b.imp", where=here).out)["runs"][0]
        said = [it["properties"]["daig/noRunCanFail"] for it in log["artifacts"]]
        assert said == [True, False] and log["properties"] == {"daig/faults": "all"}, log["artifacts"]
        assert [it["rank"] for it in log["results"]] == [50.0]
        page = check("--format", "html", "a.imp", "b.imp", where=here).out
        assert page.count("no run can fail") == 3, "in the summary, the index, and at the file"
        assert 'name="no run can fail"' in check("--format", "junit", "a.imp", where=here).out
        many = {f"f{k}_imp": SAFE for k in range(15)}
    with folder(**many) as here:
        assert check(".", where=here).err.endswith(", f2.imp and 7 more\n"), check(".", where=here).err


def test_an_older_program() -> None:
    """Of a program that knows no request of faults reports are told, and that is said once."""
    with folder(a_imp=UNSAFE, b_imp=MIXED) as here:
        older = script(here, OLDER.format(program=program()))
        found = check("--program", older, "--format", "brief", "a.imp", "b.imp", where=here)
        assert found[:2] == (1, "a.imp:4:3: warning: the assertion may fail [assert]\n"), found
        assert found.err.count("this daig is older and knows no other faults") == 1, found.err
        assert "no run can fail" not in found.err
        log = json.loads(check("--program", older, "--format", "sarif", "a.imp", where=here).out)["runs"][0]
        assert log["properties"] == {"daig/faults": "checks"}


def test_replies_that_leave_faults_out() -> None:
    """A reply without a fault that a statement has, or with one that it has not, makes no file look clean."""
    with folder(a_imp=SAFE) as here:
        for rows in ("[]", '[{"fault":"zero","id":2,"verdict":"safe"}]', '[{"fault":"assert","id":2,"verdict":"good"}]'):
            reply = f'{{"faults":{rows},"state":"any","cost":0,"kept":0}}'
            stub = script(here, f"import sys\nfor line in sys.stdin: print({reply!r}, flush=True)")
            found: Ran = check("--program", stub, "a.imp", where=here)
            assert found.status == 2 and "[run]" in found.out, (rows, found)


def test_examples() -> None:
    """No example has other faults than those that are told of it in runs."""
    found = check("--format", "json", "--try", 32, EXAMPLES, where=EXAMPLES)
    assert {it["level"] for it in found.objects} <= {"error", "warning", "note"}
    assert all(it["inputs"] is not None or it["level"] != "error" for it in found.objects), found.out
