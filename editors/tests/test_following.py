"""Runs that are followed in this process end as those of the server do, and tell their way and their values."""
from __future__ import annotations

import asyncio
import json
from random import Random

from daig_editor.language.following import Followed, followed
from daig_editor.language.text import TextReader
from daig_editor.language.tree import number_from_one
from daig_editor.server.blocking import BlockingProcess
from daig_editor.server.process import Settings
from tests.check_tool import EXAMPLES, check, folder
from tests.program import changes, program
from tests.random_sources import SourceMaker

FUEL = 3_000
# A run through two calls, which fails in the second by the value that the loop made.
CALLS = (
    "proc half(x: int, by: int) -> r: int {\n  r = x / by;\n}\n"
    "proc twice(x: int) -> r: int {\n  r = call half(x, 2);\n  r = call half(r, r - 3);\n}\n"
    "proc main() {\n  var i: int;\n  var a: array;\n  a = array 3;\n  while (i < 2) {\n    a[i] = i + 5;\n    i = i + 1;\n  }\n"
    "  i = a[1];\n  i = call twice(i);\n}\n"
)


def run_of(text: str, inputs: tuple[int, ...] = ()) -> Followed | None:
    """A run of a text that is followed."""
    tree = TextReader().read(text.encode())
    number_from_one(tree)
    return followed(tree, inputs)


def test_as_the_server() -> None:
    """Random programs with random inputs end at the same statement by the same fault, or by none."""
    asyncio.run(compare(max(changes(400) // 8, 20)))


async def compare(many: int) -> None:
    """Compares so many programs."""
    random, failed, ended = Random(11), 0, 0
    maker = SourceMaker(random, 12)
    texts = [it.read_text() for it in sorted(EXAMPLES.glob("*.imp"))]
    for text in [*texts, *(maker.source(random.randrange(4)) for _ in range(many))]:
        server = await BlockingProcess.start(Settings(program(), "interval"), text.encode())
        for _ in range(4):
            inputs = tuple(random.choice([0, 1, -1, 2, 7, 10, 2**63 - 1, -(2**63)]) for _ in range(random.randrange(20)))
            true = await server.ask(do="run", inputs=list(inputs), fuel=FUEL)
            found = run_of(text, inputs)
            if true["run"] == "fault":
                failed += 1
                assert found and (found.number, found.fault) == (true["id"], true["fault"]), (text, inputs, true, found)
                assert found.steps[-1].number == found.number
            elif true["run"] != "fuel":
                ended += 1
                assert found is None, (text, inputs, true, found)
        await server.stop()
    print(f"test_following: {failed} runs failed, {ended} ended")
    assert failed > many // 4 and ended, (failed, ended)


def test_operators() -> None:
    """Numbers have 64 bits; division rounds to zero, and a remainder has the dividend's sign."""
    for condition, holds in (
        ("-7 / 2 == -3 && 7 / -2 == -3 && -7 / -2 == 3", True),
        ("-7 % 2 == -1 && 7 % -2 == 1 && -7 % -2 == -1", True),
        ("1 < 2 || 1 / 0 > 0", True),
        ("1 > 2 && 1 / 0 > 0", False),
        ("!(1 == 2) && (2 != 3 || 1 > 2)", True),
        ("2 - 3 - 4 == -5 && 2 * (3 + 4) == 14 && 12 / 3 / 2 == 2", True),
        ("-9223372036854775807 - 1 < 0", True),
    ):
        found = run_of(f"proc main() {{\n  assert {condition};\n}}\n")
        assert (found is None) == holds, (condition, found)
    for term, fault in (
        ("9223372036854775807 + 1", "overflow"),
        ("(-9223372036854775807 - 1) % -1", "overflow"),
        ("(-9223372036854775807 - 1) / -1", "overflow"),
        ("-(-9223372036854775807 - 1)", "overflow"),
        ("1 % 0", "zero"),
    ):
        found = run_of(f"proc main() {{\n  var x: int;\n  x = {term};\n}}\n")
        assert found and found.fault == fault, (term, found)


def test_without_an_end() -> None:
    """A run that goes on for ever, or makes great arrays again and again, is followed no further."""
    assert run_of("proc main() {\n  while (1 == 1) {\n    skip;\n  }\n}\n") is None
    assert run_of("proc main() {\n  var a: array;\n  while (1 == 1) {\n    a = array 1000000;\n  }\n}\n") is None


def test_told() -> None:
    """The calls of a failing run, its way and its values stand in the finding; in JSON and SARIF all of them."""
    with folder() as here:
        found = check("--try", 1, "-", where=here, text=CALLS).out.splitlines()
        assert found[0] == "<stdin>:2:3: error: a number is divided by zero in each run [zero]", found
        for line in (
            "in this run called here: line 17",
            "in this run called here: line 6",
            "in this run: x = 3, by = 0, r = 0",
            "it comes here by lines 11, 13, 14, 12, 16, 17, 5, 6, 2",
        ):
            assert f"      = {line}" in found, (line, found)
        told = check("--try", 1, "--format", "json", "-", where=here, text=CALLS).objects[0]
        assert told["values"] == ["x = 3", "by = 0", "r = 0"], told
        assert told["path"] == [11, 12, 13, 14, 12, 13, 14, 12, 16, 17, 5, 2, 5, 6, 2], told
        log = json.loads(check("--try", 1, "--format", "sarif", "-", where=here, text=CALLS).out)
        steps = [it["location"] for it in log["runs"][0]["results"][0]["codeFlows"][0]["threadFlows"][0]["locations"]]
        assert len(steps) == 15 and steps[2]["message"]["text"] == "a[0] = 5", steps[2]
        assert steps[-1]["message"]["text"] == "the run ends here: x = 3, by = 0, r = 0", steps[-1]
