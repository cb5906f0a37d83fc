"""What the language server offers beside diagnostics and states: names, shapes, completion, progress, settings."""
from __future__ import annotations

from random import Random

from daig_editor.language.outline import Outline
from daig_editor.language.text import TextReader
from daig_editor.language.tree import program_text
from daig_editor.protocol.shapes import TOKEN_TYPES
from tests.client import Client, Json
from tests.program import program
from tests.random_sources import SourceMaker, slow_source
from tests.small import URI, at, hover, opened, whole

TEXT = """// one
// two
proc twice(n: int) -> r: int {
  r = n + n;
}

proc show(n: int, p: list) {
  assert n > 0;
}

proc main() {
  var i: int;
  var n: int;
  i = input;
  while (i < 10) {
    i = i + 1;

  }
  n = call twice(i);
  call show(n, null);
  assert n == 20;
}
"""


def lines(found: list[Json]) -> list[int]:
    """The lines of locations."""
    return [it["range"]["start"]["line"] for it in found]


def test_names() -> None:
    """References, highlights and definitions go by what a name stands for, in broken texts too."""
    client, _ = opened({}, TEXT)
    asked = {**at(18, 2), "context": {"includeDeclaration": True}}
    assert lines(client.request("textDocument/references", asked)) == [12, 18, 19, 20]
    asked["context"] = {"includeDeclaration": False}
    assert lines(client.request("textDocument/references", asked)) == [18, 19, 20]
    asked = {**at(18, 13), "context": {"includeDeclaration": True}}
    assert lines(client.request("textDocument/references", asked)) == [2, 18]
    found = client.request("textDocument/documentHighlight", at(14, 9))
    assert [(it["range"]["start"]["line"], it["kind"]) for it in found] == [
        (11, 3), (13, 3), (14, 2), (15, 3), (15, 2), (18, 2)
    ], found  # fmt: skip
    client.change(URI, 2, [{"text": TEXT.replace("i = input;", "i = input")}])
    assert client.request("textDocument/definition", at(19, 9))["range"]["start"]["line"] == 6
    found = client.request("textDocument/documentSymbol", {"textDocument": {"uri": URI}})
    assert [(it["name"], it["detail"]) for it in found] == [
        ("twice", "(n: int) -> r: int"), ("show", "(n: int, p: list)"), ("main", "()")
    ], found  # fmt: skip
    client.close()


def test_rename() -> None:
    """A name is changed where it stands for the same, and not to one that would mean another thing."""
    client, _ = opened({}, TEXT)
    prepared = client.request("textDocument/prepareRename", at(14, 9))
    assert prepared["placeholder"] == "i" and prepared["range"]["start"] == {"line": 14, "character": 9}
    edits = client.request("textDocument/rename", {**at(14, 9), "newName": "count"})["changes"][URI]
    assert len(edits) == 6
    for name in ("n", "while", "2x", "x y", "a" * 33, ""):
        assert client.error("textDocument/rename", {**at(14, 9), "newName": name})["code"] == -32803, name
    assert client.error("textDocument/prepareRename", at(10, 6))["code"] == -32803
    assert client.error("textDocument/rename", {**at(2, 6), "newName": "show"})["code"] == -32803
    client.change(URI, 2, [{"text": TEXT.replace("i = input;", "i = input")}])
    assert client.error("textDocument/rename", {**at(14, 9), "newName": "count"})["code"] == -32803
    client.close()


def test_rename_random() -> None:
    """Renaming there and back gives the same text, and a program of the same shape between."""
    random = Random(8)
    for _ in range(30):
        text = SourceMaker(random, 8).source(2).encode()
        outline = Outline(text)
        known = [it for it in outline.occurrences if it.declared]
        assert len(known) == len(outline.occurrences), "each name of a program is declared"
        chosen = random.choice(known)
        assert chosen.declared
        spans = [it.token.span for it in outline.same(chosen.declared)]
        renamed = text
        for span in reversed(spans):
            renamed = renamed[: span.start] + b"zz_new" + renamed[span.end :]
        again = Outline(renamed)
        found = next(it for it in again.occurrences if it.token.word == "zz_new")
        assert found.declared and len(again.same(found.declared)) == len(spans)
        before, after = (program_text(TextReader().read(it)) for it in (text, renamed))
        if chosen.declared.role == "procedure":
            assert before.count(f"{chosen.token.word}(") == after.count("zz_new(")
        assert renamed.replace(b"zz_new", chosen.token.word.encode()) == text


def test_calls() -> None:
    """Which procedure calls which."""
    client, _ = opened({}, TEXT)
    items = client.request("textDocument/prepareCallHierarchy", at(18, 12))
    assert [it["name"] for it in items] == ["twice"]
    found = client.request("callHierarchy/incomingCalls", {"item": items[0]})
    assert [(it["from"]["name"], len(it["fromRanges"])) for it in found] == [("main", 1)], found
    main = client.request("textDocument/prepareCallHierarchy", at(10, 6))[0]
    found = client.request("callHierarchy/outgoingCalls", {"item": main})
    assert [it["to"]["name"] for it in found] == ["twice", "show"], found
    assert client.request("textDocument/prepareCallHierarchy", at(14, 9)) is None
    client.close()


def test_shapes() -> None:
    """Folding, selections, and what each token is."""
    client, _ = opened({}, TEXT)
    document: Json = {"textDocument": {"uri": URI}}
    folds = client.request("textDocument/foldingRange", document)
    assert [(it["startLine"], it["endLine"]) for it in folds] == [(0, 1), (2, 3), (6, 7), (10, 20), (14, 16)], folds
    chosen = client.request("textDocument/selectionRange", {**document, "positions": [{"line": 15, "character": 8}]})[0]
    texts = []
    while chosen:
        texts.append((chosen["range"]["start"]["line"], chosen["range"]["end"]["line"]))
        chosen = chosen.get("parent")
    assert texts == [(15, 15), (15, 15), (14, 17), (14, 17), (10, 21), (10, 21), (10, 21), (0, 22)], texts
    data = client.request("textDocument/semanticTokens/full", document)["data"]
    assert packed(data)[:9] == [
        (0, 0, "comment", 0), (1, 0, "comment", 0), (2, 0, "keyword", 0), (2, 5, "function", 1),
        (2, 11, "parameter", 1), (2, 14, "type", 0), (2, 19, "operator", 0), (2, 22, "parameter", 1), (2, 25, "type", 0)
    ], packed(data)[:9]  # fmt: skip
    where = {"start": {"line": 3, "character": 0}, "end": {"line": 3, "character": 99}}
    part = client.request("textDocument/semanticTokens/range", {**document, "range": where})["data"]
    assert [it[:3] for it in packed(part)] == [
        (3, 2, "parameter"), (3, 4, "operator"), (3, 6, "parameter"), (3, 8, "operator"), (3, 10, "parameter")
    ]  # fmt: skip
    client.close()


def packed(data: list[int]) -> list[tuple[int, int, str, int]]:
    """Semantic tokens by their places."""
    told, line, character = [], 0, 0
    for k in range(0, len(data), 5):
        line, character = line + data[k], data[k + 1] + (0 if data[k] else character)
        told.append((line, character, TOKEN_TYPES[data[k + 3]], data[k + 4]))
    return told


def test_completion() -> None:
    """What can be written at a place, in a text that is being written."""
    client, _ = opened({}, TEXT)
    cases: list[tuple[str, set[str], set[str]]] = [
        ("  i = call |", {"twice", "show"}, {"main", "i", "while"}),
        ("  |", {"i", "n", "while", "if", "assert", "call", "skip"}, {"var", "break", "len", "twice", "p"}),
        ("  while (i < 3) { |", {"break", "i"}, {"var"}),
        ("  i = n + |", {"i", "n", "len"}, {"input", "while", "p"}),
        ("  i = |", {"i", "input", "new", "call", "array"}, {"while"}),
        ("  i.|", {"next", "item"}, {"i"}),
        ("  // i = |", set(), {"i"}),
    ]
    version = 1
    for typed, wanted, unwanted in cases:
        version += 1
        front = TEXT[: TEXT.index("  assert n == 20;")]
        client.change(URI, version, [{"text": front + typed.replace("|", "") + "\n}\n"}])
        found = client.request("textDocument/completion", at(20, typed.index("|")))
        labels = {it["label"] for it in found["items"]}
        assert wanted <= labels and not unwanted & labels, (typed, labels)
    client.change(URI, 50, [{"text": "proc main() {\n  var i: \n  "}])
    found = client.request("textDocument/completion", at(1, 9))
    assert {it["label"] for it in found["items"]} == {"int", "array", "list"}
    client.change(URI, 51, [{"text": "proc main() {\n  var i: int;\n  "}])
    assert "var" in {it["label"] for it in client.request("textDocument/completion", at(2, 2))["items"]}
    client.close()


def test_signature() -> None:
    """How the procedure is called whose arguments are written, and which one it is."""
    client, _ = opened({}, TEXT)
    found = client.request("textDocument/signatureHelp", at(19, 15))
    signature = found["signatures"][0]
    assert signature["label"] == "show(n: int, p: list)" and signature["activeParameter"] == 1, found
    assert client.request("textDocument/signatureHelp", at(19, 12))["signatures"][0]["activeParameter"] == 0
    assert client.request("textDocument/signatureHelp", at(15, 9)) is None
    client.close()


def test_causes_and_runs() -> None:
    """A finding tells what it hangs on, and a run that fails makes it an error with its inputs."""
    client, told = opened({}, TEXT)
    assert [(it["code"], it["severity"]) for it in told] == [("assert", 2), ("overflow", 3)], told
    told = client.published(1, lambda told: told[0]["severity"] == 1)
    found = next(it for it in told if it["code"] == "assert")
    assert "the assertion fails with input" in found["message"], found
    beside = [it for it in found["relatedInformation"] if it["message"] == "hangs on this"]
    hung = [it["location"]["range"]["start"]["line"] for it in beside]
    assert hung == [19, 18, 15, 14, 13, 7, 3], "the nearest come first"
    where = {"textDocument": {"uri": URI}, "range": found["range"]}
    actions = client.request("textDocument/codeAction", where)
    show = next(it for it in actions if it["command"] == "daig.showCauses")
    client.command(show["command"], *show["arguments"])
    told = client.last_published()
    assert [it["range"]["start"]["line"] for it in told if it["code"] == "why"] == hung[::-1]
    assert any(it["command"] == "daig.hideCauses" for it in client.request("textDocument/codeAction", where))
    client.command("daig.hideCauses", URI)
    assert len(client.last_published()) == 2
    client.close()


def test_other_fault() -> None:
    """A run that ends at a check for another fault, here a division by zero, is none in which the check fails."""
    text = "proc main() {\n  var x: int;\n  x = input;\n  assert 10 / x != 7;\n}\n"
    for faults, before, rested in (("checks", ["assert"], [2]), ("all", ["zero", "assert"], [1, 2])):
        client, told = opened({"faults": faults}, text)
        assert [(it["code"], it["severity"]) for it in told] == [(it, 2) for it in before], told
        told = client.published(1, lambda told: "relatedInformation" in told[0])
        assert [it["severity"] for it in told] == rested and [it["code"] for it in told] == before, told
        client.close()


def test_fails_always() -> None:
    """A check after which nothing is left is told to fail in every run that comes there."""
    text = "proc main() {\n  var p: list;\n  var x: int;\n  x = p.item;\n}\n"
    client, _ = opened({"runs": 0, "faults": "checks"}, text)
    told = client.published(1, lambda told: "no run that comes here goes on" in told[0]["message"])
    assert told[0]["severity"] == 2
    client.close()
    client, told = opened({"runs": 0}, text)
    assert "in every run that comes here" in told[0]["message"] and told[0]["severity"] == 1, told
    client.close()


def test_over_is_folded() -> None:
    """What is not known after an over is one warning at the loop."""
    checks = "".join(f"  assert i == {k};\n" for k in range(20))
    text = f"proc main() {{\n  var i: int;\n  while (i < 10) {{\n    i = i + 1;\n  }}\n{checks}}}\n"
    client, told = opened({"budget": 1}, text)
    assert [(it["code"], it["severity"]) for it in told] == [("budget", 2)] and "21 checks" in told[0]["message"], told
    client.close()


def test_hover_between() -> None:
    """On an empty line of a loop the state there is told, with a range that holds the cursor."""
    client, _ = opened({}, TEXT)
    found = client.request("textDocument/hover", at(16, 0))
    assert found["contents"]["value"] == "- **here:** 1 ≤ i ≤ 10, n = 0" or "here" in found["contents"]["value"], found
    assert found["range"]["start"]["line"] == 16 and found["contents"]["value"].count("\n") == 0
    assert client.request("textDocument/hover", at(0, 0)) is None
    client.close()


def test_lenses() -> None:
    """Over each procedure stand its calls and checks."""
    client, _ = opened({}, TEXT)
    found = client.request("textDocument/codeLens", {"textDocument": {"uri": URI}})
    titles = [it["command"]["title"] for it in found]
    assert titles == ["1 call", "1 call · 1 check, safe", "1 check, 1 not safe"] or len(titles) == 3, titles
    client.close()


def test_pulled_diagnostics() -> None:
    """A client that pulls gets the diagnostics when it asks, and is told when they are new."""
    abilities = {"textDocument": {"diagnostic": {}}, "workspace": {"diagnostics": {"refreshSupport": True}}}
    client = Client({"daig": program()}, abilities)
    client.open(URI, TEXT)
    report = client.request("textDocument/diagnostic", {"textDocument": {"uri": URI}})
    assert report["kind"] == "full" and [it["code"] for it in report["items"]] == ["assert", "overflow"], report
    client.change(URI, 2, [{"text": TEXT.replace("assert n == 20;", "assert n == ;")}])
    report = client.request("textDocument/diagnostic", {"textDocument": {"uri": URI}})
    assert [it["severity"] for it in report["items"] if "code" not in it] == [1], report
    assert any(it.get("method") == "workspace/diagnostic/refresh" for it in client.seen)
    assert not any(it.get("method") == "textDocument/publishDiagnostics" for it in client.seen)
    client.close()


def test_changed_configuration() -> None:
    """Other settings are taken at once, from the message or by asking."""
    client, told = opened({"domain": "interval"}, TEXT)
    narrow = "proc main() {\n  var i: int;\n  var n: int;\n  n = input;\n  i = n;\n  assert i == n;\n}\n"
    client.change(URI, 2, [{"text": narrow}])
    assert [it["code"] for it in client.diagnostics(2)] == ["assert"]
    settings: Json = {"daig": {"domain": "octagon", "daig": program()}}
    client.notify("workspace/didChangeConfiguration", {"settings": settings})
    assert client.published(2, lambda told: not told) == []
    client.notify("workspace/didChangeConfiguration", {"settings": {"daig": {"domain": "none", "daig": program()}}})
    client.request("textDocument/hover", at(0, 0))
    assert any("domain" in it for it in client.shown)
    client.close()
    client = Client({"daig": program(), "domain": "interval"}, {"workspace": {"configuration": True}})
    client.answers["workspace/configuration"] = [{"domain": "octagon", "daig": program()}]
    client.open(URI, narrow)
    assert [it["code"] for it in client.diagnostics(1)] == ["assert"]
    client.notify("workspace/didChangeConfiguration", {"settings": None})
    assert client.published(1, lambda told: not told) == []
    client.close()


def test_progress_and_cancel() -> None:
    """Long work is told of, and can be given up: then nothing is known, and that is said."""
    client = Client({"daig": program(), "domain": "octagon"}, {"window": {"workDoneProgress": True}})
    client.open(URI, slow_source(600))
    begun: Json = client.wait(lambda it: it.get("method") == "$/progress")["params"]
    assert begun["value"]["kind"] == "begin" and begun["value"]["cancellable"], begun
    more = client.wait(lambda it: it.get("method") == "$/progress" and it["params"]["value"]["kind"] == "report")
    assert "cells" in more["params"]["value"]["message"], more
    client.notify("window/workDoneProgress/cancel", {"token": begun["token"]})
    told = client.published(1, lambda told: told and told[0]["code"] == "trouble")
    assert told[0]["severity"] == 2 and "given up" in told[0]["message"], told
    client.wait(lambda it: it.get("method") == "$/progress" and it["params"]["value"]["kind"] == "end")
    assert "x0" in hover(client, 17, 3)
    client.close()


def test_partial_diagnostics() -> None:
    """What fails in a run is shown while a long analysis runs, and marked; the whole report takes its place."""
    text = slow_source(300).replace("  x0 = 0;\n", "  x1 = input;\n  assert x1 < 5;\n  x0 = 0;\n", 1)
    client = Client({"daig": program(), "domain": "octagon"})
    client.open(URI, text)
    told = client.published(1, lambda told: len(told) == 2)
    assert [it["code"] for it in told] == ["running", "assert"] and [it["severity"] for it in told] == [3, 1], told
    assert "still runs" in told[0]["message"] and "what else may fail" in told[0]["message"], told
    assert "with input 5" in told[1]["message"] and "before the end of the analysis" in told[1]["message"], told
    whole_report = client.diagnostics(1)
    assert [it["code"] for it in whole_report] == ["assert", "assert"], whole_report
    assert not any("before the end" in it["message"] for it in whole_report), whole_report
    client.close()


def test_hints_of_whole_file() -> None:
    """The hints of all loops."""
    client, _ = opened({}, TEXT)
    hints = client.request("textDocument/inlayHint", whole())
    assert [it["position"]["line"] for it in hints] == [14], hints
    client.close()
