"""What the language server says about small programs: budgets, settings, calls, names, and texts that are none."""
from __future__ import annotations

import tempfile

from daig_editor.protocol.settings import read_options
from tests.client import Client, Json
from tests.program import program
from tests.small import URI, at, hover, kill_servers, opened, script

COUNTING = "proc main() {\n  var i: int;\n  while (i < 10) {\n    i = i + 1;\n  }\n  assert i == 10;\n}\n"
CALLS = (
    "proc f(x: int) -> r: int {\n  r = x;\n}\n"
    "proc main() {\n  var a: int;\n  a = call f(1);\n  a = call f(5);\n}\n"
)


def test_budget() -> None:
    """A budget that is used up is said in words, with what to do."""
    client, told = opened({"daig": program(), "budget": 1}, COUNTING)
    notes = [it for it in told if it.get("code") == "budget"]
    assert len(notes) == 1 and notes[0]["range"]["start"]["line"] == 2, told
    assert "budget of 1 rounds" in notes[0]["message"] and "--budget" in notes[0]["message"]
    assert "budget of 1 rounds" in hover(client, 5, 4)
    assert [it.get("code") for it in told] == ["budget"] and "2 checks there may fail or not" in notes[0]["message"]
    client.close()


def test_settled() -> None:
    """With the default budget the loop settles, and all is safe."""
    client, told = opened({"daig": program()}, COUNTING)
    assert not told, told
    words = hover(client, 2, 3)
    assert "- **before:** i = 0" in words and "- **after:** i = 10" in words, words
    assert "- **each time at the head:** 0 ≤ i ≤ 10" in words, words
    where = {"start": {"line": 0, "character": 0}, "end": {"line": 6, "character": 0}}
    hints = client.request("textDocument/inlayHint", {"textDocument": {"uri": URI}, "range": where})
    assert [(it["label"], it["position"]) for it in hints] == [("0 ≤ i ≤ 10", {"line": 2, "character": 18})], hints
    client.close()


def test_broken() -> None:
    """While the text is no program, the last good one is asked, where the text around is the same."""
    client, _ = opened({"daig": program()}, COUNTING)
    words = hover(client, 2, 3)
    client.change(URI, 2, [{"text": "// more\n" + COUNTING.replace("i + 1", "i +").replace("i == 10", "i == 11")}])
    told = client.diagnostics(2)
    assert [(it["severity"], it["range"]["start"]) for it in told] == [(1, {"line": 4, "character": 11})], told
    assert hover(client, 4, 6) == "" and hover(client, 0, 0) == ""
    client.change(URI, 3, [{"text": COUNTING.replace("i + 1", "i +")}])
    assert len(client.diagnostics(3)) == 1
    assert hover(client, 2, 3) == f"as it was before the text was broken:\n\n{words}"
    where = {"start": {"line": 0, "character": 0}, "end": {"line": 6, "character": 0}}
    hints = client.request("textDocument/inlayHint", {"textDocument": {"uri": URI}, "range": where})
    assert [it["label"] for it in hints] == ["before: 0 ≤ i ≤ 10"], hints
    client.change(URI, 4, [{"text": COUNTING.replace("i == 10", "i == 11")}])
    assert [(it["severity"], it["code"]) for it in client.diagnostics(4)] == [(1, "assert")]
    result = client.command("daig.serverProgram", URI)
    assert result["counts"]["starts"] == 1 and result["counts"]["requests"] == 1, result
    client.close()


def test_calls() -> None:
    """A procedure's states are those of all calls, or of one that is chosen."""
    client, _ = opened({"daig": program()}, CALLS)
    assert "1 ≤ x ≤ 5" in hover(client, 1, 3)
    actions = client.request("textDocument/codeAction", {**at(0, 0), "range": {"start": {"line": 6, "character": 8}}})
    assert [it["command"] for it in actions] == ["daig.chooseCall"], actions
    client.command(actions[0]["command"], *actions[0]["arguments"])
    words = hover(client, 1, 3)
    assert "called from line 7" in words and "x = 5" in words, words
    assert "r = 5" in hover(client, 0, 6)
    client.command("daig.allCalls", URI)
    assert "1 ≤ x ≤ 5" in hover(client, 1, 3)
    client.close()


def test_names() -> None:
    """Calls lead to their procedures, variables to their declarations; symbols are both."""
    client, _ = opened({"daig": program()}, CALLS)
    for line, character, wanted in ((5, 11, 0), (5, 2, 4), (1, 6, 0)):
        found = client.request("textDocument/definition", at(line, character))
        assert found["range"]["start"]["line"] == wanted, (line, found)
    assert client.request("textDocument/definition", at(2, 0)) is None
    found = client.request("textDocument/documentSymbol", {"textDocument": {"uri": URI}})
    names = [(it["name"], [inner["name"] for inner in it["children"]]) for it in found]
    assert names == [("f", ["x", "r"]), ("main", ["a"])], names
    client.close()


def test_refusals() -> None:
    """Each kind of refusal stands at its place."""
    places = [
        ("proc main() { x = 1; }", "UnknownName", 14, 15),
        ("proc main() { var x: int; var x: list; }", "Redeclared", 30, 31),
        ("proc f() { }", "NoMain", 5, 6),
        ("proc main() { break; }", "BreakOutside", 14, 20),
        ("proc main() { skip", "Unexpected", 18, 18),
        ("proc main() { skip; & }", "BadByte", 20, 21),
        ("proc main(x: int) { }", "MainHasParameters", 5, 9),
    ]
    for text, name, start, end in places:
        client, told = opened({"daig": program()}, text)
        found = told[0]["range"]["start"]["character"], told[0]["range"]["end"]["character"]
        assert len(told) == 1 and f"({name})" in told[0]["message"] and found == (start, end), (text, told)
        assert hover(client, 0, 15) == "" and not client.shown
        client.close()


def test_settings() -> None:
    """Wrong settings are shown; a program that is not there is shown once."""
    client, told = opened({"daig": program(), "budget": 0, "colour": "red"}, COUNTING)
    assert not told and len(client.shown) == 2 and read_options({"daig": program()}).complaints == [], client.shown
    client.close()
    client, told = opened({"daig": "/no/such/program"}, COUNTING)
    assert len(told) == 1 and "cannot be asked" in told[0]["message"] and len(client.shown) == 1, client.shown
    assert "no program /no/such/program; give the path of one by the setting `daig`" in client.shown[0], client.shown
    client.change(URI, 2, [{"text": COUNTING + "\n"}])
    assert len(client.diagnostics(2)) == 1 and len(client.shown) == 1, client.shown
    client.close()


def test_failing_start() -> None:
    """A program that ends in its start is told of once, with the last line that it said."""
    with tempfile.TemporaryDirectory() as folder:
        failing = script(folder, "echo 'building' >&2\necho 'daig: rt is not on the PATH' >&2\nexit 1\n")
        client, told = opened({"daig": failing}, COUNTING)
        words = "daig serve cannot be asked: it ended with status 1: daig: rt is not on the PATH"
        assert [it["message"] for it in told] == [words], told
        assert client.shown == [f"daig: {words}"], client.shown
        client.close()


def test_lost() -> None:
    """Where the server is killed, the next change starts another one."""
    client, told = opened({"daig": program()}, CALLS)
    kill_servers(client)
    client.change(URI, 2, [{"text": CALLS.replace("call f(5)", "call f(7)")}])
    assert client.diagnostics(2) == told == [] and "1 ≤ x ≤ 7" in hover(client, 1, 3)
    assert any("given up" in it for it in client.log), client.log
    client.close()


def test_errors() -> None:
    """Requests that cannot be answered get an error, and the server goes on."""
    client, _ = opened({"daig": program()}, COUNTING)
    asked: list[tuple[str, Json, int]] = [
        ("no/such", {}, -32601),
        ("textDocument/hover", {}, -32602),
        ("textDocument/hover", {"textDocument": {"uri": "file:///other.imp"}, "position": {}}, -32602),
        ("workspace/executeCommand", {"command": "daig.none", "arguments": [URI]}, -32602),
    ]
    for method, params, code in asked:
        number = client.ask(method, params)
        message = client.wait(lambda it: it.get("id") == number and "method" not in it)
        assert message["error"]["code"] == code, message
    client.notify("textDocument/didChange", {"textDocument": {"uri": "file:///other.imp"}})
    assert "i = 0" in hover(client, 2, 3)
    client.close()
