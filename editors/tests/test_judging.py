"""All faults in the editor: how bad they are, their order, what the last change made, and long programs."""
from __future__ import annotations

import tempfile
from pathlib import Path

from tests.check_tool import OLDER, script
from tests.client import Client, Json
from tests.program import program
from tests.small import URI, opened

MIXED = (
    "proc main() {\n  var x: int;\n  var y: int;\n  var a: array;\n  x = input;\n  y = x + 1;\n  y = 10 / x;\n"
    "  y = 0;\n  if (x > 7) {\n    y = 1 / y;\n  }\n}\n"
)
SAFE = "proc main() {\n  var x: int;\n  var y: int;\n  var z: int;\n  x = 7;\n  y = 0;\n  y = x + 7;\n  x = 100 / x;\n  z = input;\n  assert z < 9;\n}\n"
# Far more faults than are asked for after each change, and one statement before them.
LONG = "proc main() {\n  var x: int;\n  var y: int;\n  y = 7;\n  x = input;\n" + "  y = y + x;\n" * 600 + "}\n"
ERROR, WARNING, INFORMATION, HINT = 1, 2, 3, 4


def shown(told: list[Json]) -> list[tuple[int, object, int]]:
    """Line, rule and severity of diagnostics, in the order in which they come."""
    return [(it["range"]["start"]["line"] + 1, it["code"], it["severity"]) for it in told]


def test_severities_and_order() -> None:
    """What is certain is an error and comes first; a sum that may pass its limits is information and comes last."""
    for faults, wanted in (
        ("all", [(10, "zero", ERROR), (7, "zero", WARNING), (6, "overflow", INFORMATION)]),
        ("strict", [(10, "zero", ERROR), (7, "zero", WARNING), (6, "overflow", WARNING)]),
        ("checks", []),
    ):
        client, told = opened({"faults": faults, "runs": 0}, MIXED)
        assert shown(told) == wanted, (faults, told)
        if told:
            assert told[0]["message"] == "a number is divided by zero in every run that comes here (zero)"
        client.close()


def test_runs() -> None:
    """A run that ends by any fault is an error with its inputs, once the text rests."""
    client, _ = opened({"runs": 32}, MIXED)
    told = client.published(1, lambda told: any("with input 0" in it["message"] for it in told))
    assert (7, "zero", ERROR) in shown(told) and (6, "overflow", ERROR) in shown(told), told
    client.close()


# A run that fails after some rounds of a loop.
ROUNDS = (
    "proc main() {\n  var i: int;\n  var n: int;\n  var a: array;\n  a = array 3;\n  n = input;\n"
    "  while (i < n) {\n    a[i] = i;\n    i = i + 1;\n  }\n}\n"
)


def beside(told: list[Json]) -> list[str]:
    """What stands beside the diagnostic of the check in a loop, each with its line, in order."""
    found: Json = next((it for it in told if it["code"] == "bounds"), {})
    related = found.get("relatedInformation", [])
    return [f'{it["location"]["range"]["start"]["line"] + 1} {it["message"]}' for it in related]


def test_path_of_a_run() -> None:
    """A run that fails has its way beside it: each step in order with what it sets, and the values at the end."""
    client, _ = opened({"runs": 32}, ROUNDS.replace("input", "7"))
    told = client.published(1, lambda told: any("hangs on this" in it for it in beside(told)))
    rounds = ["7 the run comes here", "8 a[0] = 0", "9 i = 1", "7 the run comes here", "8 a[1] = 1", "9 i = 2"]
    rounds += ["7 the run comes here", "8 a[2] = 2", "9 i = 3", "7 the run comes here"]
    wanted = ["5 len a = 3", "6 n = 7", *rounds, "8 the run ends here: i = 3, n = 7, len a = 3"]
    assert beside(told)[:13] == wanted and beside(told)[13].endswith("hangs on this"), beside(told)
    client.change(URI, 2, [{"text": ROUNDS.replace("array 3", "array 20").replace("input", "70")}])
    told = client.published(2, lambda told: any("the run ends" in it for it in beside(told)))
    way = [it for it in beside(told) if "hangs on this" not in it]
    assert len(way) == 32 and way[0] == "7 earlier steps are left out; the run comes here", way
    assert way[-1] == "8 the run ends here: i = 20, n = 70, len a = 20", way
    client.close()


def test_causes_by_variables() -> None:
    """What has a variable of the check comes first of what it hangs on, then the nearest."""
    text = (
        "proc main() {\n  var i: int;\n  var k: int;\n  var a: array;\n  a = array 9;\n  i = input;\n  k = input;\n"
        "  if (k < 3) {\n    a[i] = 1;\n  }\n}\n"
    )
    client, _ = opened({"runs": 0}, text)
    told = client.published(1, lambda told: beside(told))
    assert beside(told) == [f"{line} hangs on this" for line in (6, 5, 8, 7)], beside(told)
    client.close()


def rested(client: Client, version: int) -> list[Json]:
    """The diagnostics of a version after it has rested, by which each finding has what it hangs on."""
    return client.published(version, lambda told: any("relatedInformation" in it for it in told))


def test_new_with_the_last_change() -> None:
    """What was safe while the text rested before is told as new, up to the next change after a rest."""
    client, told = opened({"runs": 0}, SAFE)
    assert shown(told) == [(10, "assert", WARNING)] == shown(rested(client, 1)), told
    new = SAFE.replace("x = 7", "x = input").replace("y = 0", "y = x + 1")
    client.change(URI, 2, [{"text": new}])
    wanted = [(6, "overflow", WARNING), (7, "overflow", WARNING), (8, "zero", WARNING)]
    told = client.diagnostics(2)
    assert shown(told) == [*wanted, (10, "assert", WARNING)], told
    assert [it["message"].endswith("; new with the last change") for it in told] == [True, True, True, False], told
    assert shown(rested(client, 2))[:3] == wanted
    client.change(URI, 3, [{"text": new.replace("x + 7", "x + 9")}])
    told = client.diagnostics(3)
    assert shown(told)[2:] == [(6, "overflow", INFORMATION), (7, "overflow", INFORMATION)], told
    assert not any("new with" in it["message"] for it in told), told
    # Changes that come before the text rests are one.
    client.change(URI, 4, [{"text": new.replace("x + 7", "x + 9").replace("y = x + 1", "y = x * 2")}])
    client.change(URI, 5, [{"text": SAFE}])
    client.change(URI, 6, [{"text": SAFE.replace("y = 0", "y = 1 / y")}])
    told = client.diagnostics(6)
    assert (told[0]["code"], told[0]["severity"]) == ("zero", ERROR), told
    client.close()


def test_long_programs() -> None:
    """Of a program with many faults those of checks are told at once, all when it rests; until then the others stay. A message
    has the worst 500, and says how many more there are."""
    client, told = opened({"runs": 0}, LONG)
    assert not told, told
    told = client.published(1, bool)
    assert len(told) == 501 and {it["severity"] for it in told} == {INFORMATION}, shown(told)[:3]
    assert told[-1]["code"] == "more" and "100" in told[-1]["message"], told[-1]
    client.change(URI, 2, [{"text": LONG.replace("y = 7;", "y = 8;").replace("  y = y + x;\n", "", 1)}])
    told = client.diagnostics(2)
    assert len(told) == 501 and "99" in told[-1]["message"], told[-1]
    client.change(URI, 3, [{"text": LONG.replace("y = 7;", "assert x == 1;")}])
    told = client.published(3, lambda told: len(told) == 501 and "101" in told[-1]["message"])
    assert told[0]["code"] == "assert" and told[0]["severity"] == ERROR, told[0]
    client.close()


def test_an_older_program() -> None:
    """A program that knows no request of faults is told of once; what its reports say is shown."""
    with tempfile.TemporaryDirectory() as name:
        older = script(Path(name), OLDER.format(program=program()))
        client, told = opened({"daig": str(older), "runs": 0}, MIXED + "// more")
        assert not told, told
        client.change(URI, 2, [{"text": MIXED.replace("y = 0", "assert x == 3")}])
        assert shown(client.diagnostics(2)) == [(8, "assert", WARNING)]
        assert len([it for it in client.shown if "is older" in it]) == 1, client.shown
        client.close()
