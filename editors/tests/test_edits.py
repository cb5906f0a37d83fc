"""What requests a change of a text becomes."""
from __future__ import annotations

from daig_editor.language.edits import NoPlan, plan
from daig_editor.language.text import TextReader
from daig_editor.language.tree import number_from_one

BASE = """
proc f(x: int) -> r: int { var y: int; r = x; }
proc main() {
  var i: int;
  i = 1;
  while (i < 9) { i = i + 1; }
  if (i < 3) { skip; } else { i = 2; }
  i = call f(i);
}
"""
# The numbers: 1 is `r = x;`, 2 `i = 1;`, 3 the loop, 4 its body, 5 the `if`, 6 and 7 its blocks, 8 the call; 9 is next.
CASES: list[tuple[str, str, str, list[dict[str, object]]]] = [
    ("layout alone", "i = 1;", "// one\n    i   =  (1) ;", []),
    ("a statement becomes another", "i = 1;", "i = 7;", [{"do": "replace", "id": 2, "text": "i = 7;"}]),
    ("a number grows", "i < 9", "i < 99", [{"do": "guard", "id": 3, "text": "i < 99"}]),
    ("the first of main", "i = 1;", "skip; i = 1;", [{"do": "insert", "place": "start main", "text": "skip;\n"}]),
    ("one after another", "i = 1;", "i = 1; skip;", [{"do": "insert", "place": "after 2", "text": "skip;\n"}]),
    ("the first of a loop", "{ i = i", "{ skip; i = i", [{"do": "insert", "place": "body 3", "text": "skip;\n"}]),
    ("the first of a block", "{ skip", "{ i = 5; skip", [{"do": "insert", "place": "then 5", "text": "i = 5;\n"}]),
    ("the first of an else", "{ i = 2", "{ skip; i = 2", [{"do": "insert", "place": "else 5", "text": "skip;\n"}]),
    ("the end of a block", "skip;", "skip; i = 5;", [{"do": "insert", "place": "after 6", "text": "i = 5;\n"}]),
    ("one goes", "i = i + 1;", "", [{"do": "delete", "id": 4}]),
    ("a loop goes", "while (i < 9) { i = i + 1; }", "", [{"do": "delete", "id": 3}]),
    ("an else goes", "else { i = 2; }", "", [{"do": "delete", "id": 7}]),
    (
        "a variable comes",
        "i: int;",
        "i: int; var k: list;",
        [{"do": "declare", "proc": "main", "name": "k", "kind": "list"}],
    ),
    (
        "a procedure comes",
        "proc main",
        "proc g() { skip; } proc main",
        [{"do": "add", "before": "main", "text": "proc g() {\n  skip;\n}\n"}],
    ),
    (
        "a block comes",
        "i = 1;",
        "i = 1; if (i < 2) { skip; break; }",
        [{"do": "insert", "place": "after 2", "text": "if (i < 2) {\n  skip;\n  break;\n}\n"}],
    ),
    (
        "a statement is wrapped",
        "i = 1;",
        "while (i < 1) { i = 1; }",
        [{"do": "delete", "id": 2}, {"do": "insert", "place": "start main", "text": "while (i < 1) {\n  i = 1;\n}\n"}],
    ),
    (
        "a condition and its block",
        "9) { i = i + 1; }",
        "8) { i = i + 2; }",
        [{"do": "guard", "id": 3, "text": "i < 8"}, {"do": "replace", "id": 4, "text": "i = i + 2;"}],
    ),
]
UNPLANNED = [
    ("a declaration goes", "var y: int;", ""),
    ("a parameter comes", "f(x: int)", "f(x: int, z: int)"),
    ("a result changes", "r: int {", "r: list {"),
    ("a variable comes in front", "var i: int;", "var k: int; var i: int;"),
    ("main is renamed", "proc main", "proc other"),
]


def test_cases() -> None:
    """Each case has its requests."""
    reader = TextReader()
    for name, old, new, wanted in CASES:
        before, after = reader.read(BASE.encode()), reader.read(BASE.replace(old, new, 1).encode())
        assert old in BASE, name
        found = plan(before, after, number_from_one(before))
        assert [it.fields for it in found.requests] == wanted, f"{name}: {found.requests}"


def test_drop() -> None:
    """A procedure goes after its last call."""
    reader = TextReader()
    start = BASE.index("proc f")
    text = BASE[:start] + BASE[BASE.index("proc main") :].replace("call f(i)", "4")
    before, after = reader.read(BASE.encode()), reader.read(text.encode())
    found = plan(before, after, number_from_one(before))
    wanted = [{"do": "replace", "id": 8, "text": "i = 4;"}, {"do": "drop", "proc": "f"}]
    assert [it.fields for it in found.requests] == wanted, found.requests


def test_unplanned() -> None:
    """What no request says has no plan."""
    reader = TextReader()
    for name, old, new in UNPLANNED:
        before, after = reader.read(BASE.encode()), reader.read(BASE.replace(old, new, 1).encode())
        try:
            found = plan(before, after, number_from_one(before))
        except NoPlan:
            continue
        raise AssertionError(f"{name}: {found.requests}")
