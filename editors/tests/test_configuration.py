"""The language server reads the `daig.toml` above a file, as daig-check does; the client's settings go before it."""
from __future__ import annotations

from pathlib import Path

from tests.check_tool import LOOPS, UNSAFE, folder
from tests.client import Client, Json
from tests.program import program

EQUAL = "proc main() {\n  var i: int;\n  var n: int;\n  n = input;\n  i = n;\n  assert i <= n;\n}\n"


def told(options: Json, path: Path, text: str) -> tuple[list[object], list[str]]:
    """The rules of the first diagnostics of a file, and what was shown."""
    client = Client({"daig": program(), "runs": 0, **options})
    client.open(path.as_uri(), text)
    codes = [it["code"] for it in client.diagnostics(1)]
    client.close()
    return codes, client.shown


def test_of_a_file() -> None:
    """The nearest one counts; what the client sets goes before it."""
    with folder(a_imp=UNSAFE) as here:
        (here / "below").mkdir()
        (here / "daig.toml").write_text('domain = "interval"\nbudget = 1\n')
        (here / "below/daig.toml").write_text('select = ["null"]\nfaults = "checks"\n')
        assert told({}, here / "a.imp", EQUAL) == (["assert"], [])
        assert told({"domain": "octagon"}, here / "a b.imp", EQUAL) == ([], [])
        assert told({}, here / "a.imp", LOOPS)[0] == ["budget"]
        assert told({"budget": 100}, here / "a.imp", LOOPS) == ([], [])
        assert told({}, here / "below/a.imp", UNSAFE) == ([], [])


def test_that_is_wrong() -> None:
    """What is wrong in it is shown, and the settings stand."""
    with folder(a_imp=UNSAFE) as here:
        (here / "daig.toml").write_text("budget = 0\n")
        codes, shown = told({}, here / "a.imp", UNSAFE)
        assert codes == ["assert"] and len(shown) == 1 and "daig.toml: budget: a number" in shown[0], shown


def test_that_changes() -> None:
    """It is read anew where the file is saved."""
    with folder(a_imp=UNSAFE) as here:
        client, uri = Client({"daig": program(), "runs": 0}), (here / "a.imp").as_uri()
        client.open(uri, UNSAFE)
        assert len(client.diagnostics(1)) == 1
        (here / "daig.toml").write_text('select = ["bounds"]\n')
        client.notify("textDocument/didSave", {"textDocument": {"uri": uri}})
        client.published(1, lambda told: not told)
        client.close()
