"""Everyday points of editors: symbols of all files, layout while typing, what server it is, and answers that fit a client."""
from __future__ import annotations

import json
import os
import tempfile
import time
from pathlib import Path

from daig_editor import VERSION
from daig_editor.protocol.fitting import MOST_PLACES, MOST_TOLD
from daig_editor.protocol.workspace import path_of
from tests.client import Client, Json
from tests.program import program
from tests.random_sources import slow_source
from tests.small import FAILING, URI, at, codes, hover, opened, script, whole

HEADS = "proc {0}(x: int) -> (r: int) {{\n  r = x;\n}}\n// proc hidden(\nproc main() {{\n}}\n"


def names(found: list[Json]) -> list[tuple[str, str, int]]:
    """Symbols by their names, files and lines."""
    return [
        (it["name"], os.path.basename(it["location"]["uri"]), it["location"]["range"]["start"]["line"]) for it in found
    ]


def test_workspace_symbols() -> None:
    """Procedures of open files as they are typed, and of the others in the client's folders, by letters of their names."""
    with tempfile.TemporaryDirectory() as name:
        folder = Path(name) / "with space"
        (folder / ".hidden").mkdir(parents=True)
        for file, text in (("a.imp", "first"), ("b.imp", "second"), (".hidden/c.imp", "third"), ("d.txt", "fourth")):
            (folder / file).write_text(HEADS.format(text))
        (folder / "gone.imp").symlink_to("nowhere")
        client = Client({"daig": program()}, root=folder)
        assert names(client.request("workspace/symbol", {"query": ""})) == [
            ("first", "a.imp", 0), ("main", "a.imp", 4), ("second", "b.imp", 0), ("main", "b.imp", 4)]  # fmt: skip
        client.open((folder / "b.imp").as_uri(), "\n" + HEADS.format("changed"))
        assert names(client.request("workspace/symbol", {"query": "HGD"})) == [("changed", "b.imp", 1)]
        assert names(client.request("workspace/symbol", {"query": "frs"})) == [("first", "a.imp", 0)]
        assert client.request("workspace/symbol", {"query": "second"}) == []
        client.close()
    assert path_of("file:///a%20b") == "/a b" and path_of("untitled:1") is None and path_of(3) is None


def typed(client: Client, text: str, key: str) -> str:
    """What a text becomes where its `|` is the place after a key that was typed."""
    place = text.index("|")
    before, source = text[:place], text.replace("|", "")
    client.change(URI, 2, [{"text": source}])
    line = before.count("\n")
    where = {**at(line, len(before) - before.rfind("\n") - 1), "ch": key, "options": {"tabSize": 4}}
    lines = source.split("\n")
    for edit in reversed(client.request("textDocument/onTypeFormatting", where)):
        start, end = edit["range"]["start"], edit["range"]["end"]
        assert start["line"] == end["line"] == line, edit
        lines[line] = lines[line][: start["character"]] + edit["newText"] + lines[line][end["character"] :]
    return "\n".join(lines)


def test_layout_while_typing() -> None:
    """A line is laid out when it is ended, and a new one begins where it should; no other line changes."""
    client, _ = opened({}, FAILING)
    for text, key, wanted in (
        ("proc main() {\n  if (true) {\n|\n  }\n}\n", "\n", "proc main() {\n  if (true) {\n    \n  }\n}\n"),
        ("proc main() {\n  x = 1\n      | + 2;\n}\n", "\n", "proc main() {\n  x = 1\n      + 2;\n}\n"),
        ("proc main() {\n  if (true) {\n    }|\n}\n", "}", "proc main() {\n  if (true) {\n  }\n}\n"),
        ("proc main() {\nx=1+ 2;|\n  y=3;\n}\n", ";", "proc main() {\n  x = 1 + 2;\n  y=3;\n}\n"),
        ("proc main() {\n  if(a<b){x=1;}|\n}\n", "}", "proc main() {\n  if (a < b) {x = 1;}\n}\n"),
        ("proc main() {\n x=1;|  // said\n}\n", ";", "proc main() {\n  x = 1;  // said\n}\n"),
        ("proc main() {\n x=1 @;|\n}\n", ";", "proc main() {\n x=1 @;\n}\n"),
    ):
        assert typed(client, text, key) == wanted, (text, typed(client, text, key))
    client.close()


def test_version() -> None:
    """The server says its version, and of which kind the program is, or which other one it asks."""
    with tempfile.TemporaryDirectory() as folder:
        other = script(folder, f"exec {program()} \"$@\"\n")
        choices: list[Json] = [{}, {"daig": other}]
        for options in choices:
            client = Client(options, environment={"DAIG_PROGRAM": program()})
            version = client.about["version"]
            assert version.startswith(f"{VERSION} (") and (options.get("daig") or program()) in version, version
            client.close()


def test_plain_client() -> None:
    """A client that says nothing of what it can take gets the plainest answers."""
    client = Client({"daig": program()}, able={})
    client.open(URI, FAILING)
    told = client.diagnostics(1)
    assert codes(told) == ["assert"] and not {"relatedInformation", "tags"} & set(told[0]), told
    published = [it["params"] for it in client.seen if it.get("method") == "textDocument/publishDiagnostics"]
    assert published and all(set(it) == {"uri", "diagnostics"} for it in published), published
    found = client.request("textDocument/hover", at(2, 3))["contents"]
    assert found["kind"] == "plaintext" and "- before:" in found["value"] and "*" not in found["value"], found
    symbols = client.request("textDocument/documentSymbol", {"textDocument": {"uri": URI}})
    assert [(it["name"], it.get("containerName")) for it in symbols] == [("main", None), ("i", "main")], symbols
    assert all(set(it["location"]) == {"uri", "range"} and "children" not in it for it in symbols), symbols
    misspelt = FAILING.replace("assert i", "assert ii")
    for is_able, many in ((True, 1), (False, 0)):
        other = Client({"daig": program()}, able=None if is_able else {})
        other.open(URI, misspelt)
        other.diagnostics(1)
        actions = other.request("textDocument/codeAction", {**whole(), "context": {"diagnostics": []}})
        assert sum("edit" in it for it in actions) == many, actions
        other.close()
    assert "**" in hover(opened({}, FAILING)[0], 2, 3)
    client.close()


def test_actions_of_a_line() -> None:
    """What can be done for a diagnostic is offered where the client names it, wherever the cursor is; each once."""
    client, told = opened({"runs": 0}, FAILING)
    spot = {"line": 3, "character": 0}
    where = {"textDocument": {"uri": URI}, "range": {"start": spot, "end": spot}}
    for diagnostics, titles in (([], []), (told, ["Show what this hangs on"]), (told * 2, ["Show what this hangs on"])):
        found = client.request("textDocument/codeAction", {**where, "context": {"diagnostics": diagnostics}})
        assert [it["title"] for it in found] == titles, found
    client.close()


def test_actions_of_diagnostics() -> None:
    """Where the client names diagnostics, what is done for these is offered, and nothing for others at the place."""
    text = "proc main() {\n  var x: int; var y: int;\n  x = input; y = input; assert x == 1; assert y == 2;\n}\n"
    client, told = opened({"runs": 0}, text)
    assert codes(told) == ["assert", "assert"], told
    at_first = {"textDocument": {"uri": URI}, "range": told[0]["range"]}
    for about in (told[0], told[1]):
        found = client.request("textDocument/codeAction", {**at_first, "context": {"diagnostics": [about]}})
        assert [it["arguments"][1] for it in found] == [about["range"]["start"]], found
    moved = [{**told[1], "range": told[0]["range"], "code": "null"}]
    assert client.request("textDocument/codeAction", {**at_first, "context": {"diagnostics": moved}}) == []
    client.change(URI, 2, [{"text": text.replace("assert y", "assert yy").replace("assert x", "assert xx")}])
    told = client.diagnostics(2)
    whole_line = {"textDocument": {"uri": URI}, "range": {"start": {"line": 2, "character": 0}, "end": told[1]["range"]["end"]}}
    for diagnostics, titles in (([], ["Write `x`", "Write `y`"]), (told[1:], ["Write `y`"]), (told, ["Write `x`", "Write `y`"])):
        found = client.request("textDocument/codeAction", {**whole_line, "context": {"diagnostics": diagnostics}})
        assert [it["title"] for it in found] == titles, found
    client.close()


def test_pulls_of_long_work() -> None:
    """A client that pulls is told that the work runs, and then to ask again."""
    abilities = {"textDocument": {"diagnostic": {}}, "workspace": {"diagnostics": {"refreshSupport": True}}}
    client = Client({"daig": program(), "domain": "octagon"}, abilities)
    client.open(URI, slow_source(300).replace("  x0 = 0;\n", "  x1 = input;\n  assert x1 < 5;\n  x0 = 0;\n", 1))
    began = time.monotonic()
    pulls: list[list[object]] = []
    while not pulls or "running" in pulls[-1]:
        pulls.append(codes(client.request("textDocument/diagnostic", {"textDocument": {"uri": URI}})["items"]))
        if len(pulls) == 1:
            assert "running" in pulls[0] and time.monotonic() - began < 30, pulls
        if "running" in pulls[-1]:
            client.wait(lambda it: it.get("method") == "workspace/diagnostic/refresh", 300)
    assert pulls[-1] == ["assert", "assert"], pulls
    client.close()


def test_bounded_message() -> None:
    """Of very many findings the worst are told, and how many are left; no message is very long."""
    many = MOST_TOLD + 150
    text = "proc main() {\n  var i: int;\n" + "  i = input;\n  assert i < 3;\n" * many + "}\n"
    client, _ = opened({"domain": "interval"}, text)
    told = client.published(1, lambda told: any(it["severity"] == 1 for it in told))
    assert len(told) == MOST_TOLD + 1 and codes(told)[-1] == "more" and "150 more findings" in told[-1]["message"]
    assert sum(len(it.get("relatedInformation", [])) for it in told) <= MOST_PLACES
    assert len(json.dumps(told)) < 250_000, len(json.dumps(told))
    client.close()
