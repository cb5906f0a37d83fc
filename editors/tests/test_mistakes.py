"""Typical mistakes are told in words that say what is wanted, and at the very place."""
from __future__ import annotations

from daig_editor.language.refusals import Refusal, refusal_of_check, refusal_of_fault
from daig_editor.language.text import TextReader
from daig_editor.language.tokens import Fault
from daig_editor.language.tree import number_from_one
from tests.check_tool import check, folder
from tests.small import URI, opened

# A statement of main, the words at the place, and what is told.
UNEXPECTED = [
    ("x = 1", "}", "`}` is unexpected, `;` is wanted"),
    ("x == 1;", "==", "did you mean `=`?"),
    ("if (x = 1) { }", "=", "a comparison is wanted; did you mean `==`?"),
    ("x++;", "+", "write `x = x + ..;`"),
    ("x += 1;", "+", "write `x = x + ..;`"),
    ("for (x = 0; x < 3; x = x + 1) { }", "(", "there is no `for`: write a `while`"),
    ("return x;", "x", "there is no `return`"),
    ("if (x < 1) { } else if (x > 1) { }", "if", "write `else { if (..) { .. } }`"),
    ("f(x);", "(", "did you mean `call f(..)`?"),
    ("int y;", "int", "declare by `var NAME: int;`"),
    ("x = 1; var y: int;", "var", "declarations stand at the start of a procedure"),
    ("while x < 3 { }", "x", "`(` is wanted"),
    ("x = a.len;", "len", "write `len NAME`"),
    ("x = a[0] + 1;", "+", "an element or a part of a cell is read alone"),
    ("if (a[0] < 1) { }", "[", "an element or a part of a cell is read alone"),
    ("if (p.next == null) { }", ".", "an element or a part of a cell is read alone"),
    ("x = input + 1;", "+", "`input` stands alone after `NAME =`"),
    ("/* c */", "/", "a comment begins with `//`"),
    ("x = y z;", "z", "`;` is wanted"),
    ("var len: int;", "len", "`len` is a word of the language"),
    ("call f(1;", ";", "`,` or `)` is wanted"),
    ("x = (1 + 2;", ";", "`)` is wanted"),
    ("x = 1 +;", ";", "an expression is wanted"),
    ("if (x < 1) x = 2;", "x", "`{` is wanted"),
    ("if (x) { }", ")", "a comparison is wanted"),
    ("else { }", "else", "straight after the `}` of an `if`"),
    ("p.foo = 1;", "foo", "`next` or `item` is wanted"),
    ("}", "}", "`proc` is wanted"),
    ("if (x) { }", ")", "a condition is a comparison, as `i != 0`"),
    ("if ((x + 1) < 3) { }", ")", "whose left side does not begin with `(`"),
    ("if (x < 1 and x > 0) { }", "and", "did you mean `&&`?"),
    ("x = twice(1);", "(", "did you mean `call twice(..)`?"),
    ("whlie (x < 3) { }", "(", "did you mean `while (..)`?"),
    ("if (x < 1) { } elif (x > 1) { }", "(", "write `else { if (..) { .. } }`"),
    ("x = 1\n  count = 2;", "count", "`;` is wanted; line"),
]
# A statement of main, a byte that begins no token, and what is told.
BYTES = [
    ("if (x < 1 & x > 0) { }", "&", "did you mean `&&`? (BadByte)"),
    ("if (x < 1 | x > 0) { }", "|", "did you mean `||`? (BadByte)"),
]
CHECKED = [
    ("p = nil;", "nil", "no variable `nil` is declared; did you mean `null`?"),
    ("count = coutn + 1;", "coutn", "no variable `coutn` is declared; did you mean `count`?"),
    ("x = call twise(1);", "twise", "no procedure `twise` is declared; did you mean `twice`?"),
    ("x = call main();", "main", "a procedure does not call itself"),
    ("x = a;", "a", "`x` is an int, `a` is an array"),
    ("x = a + 1;", "a", "`a` is an array, an int is wanted here"),
    ("x = len x;", "x", "`x` is an int, an array is wanted here"),
    ("p = x;", "x", "`p` is a list, `x` is an int"),
    ("x = null;", "x", "`x` is an int, a list is wanted here"),
    ("p = input;", "p", "`p` is a list, an int is wanted here"),
    ("x = p.next;", "x", "`x` is an int, a list is wanted here"),
    ("x.item = 1;", "x", "`x` is an int, a list is wanted here"),
    ("if (x == null) { }", "x == null", "an int is compared with null"),
    ("assert p < null;", "p < null", "lists are compared by `==` and `!=` alone"),
    ("assert a == a;", "a", "an array is not compared; its `len` is an int"),
    ("x = call twice(a);", "a", "argument 1 of `twice(n: int) -> r: int` is an array"),
    ("x = call twice();", "twice", "`twice(n: int) -> r: int` takes 1 argument, not 0"),
    ("x = call show(1);", "show", "`show(n: int)` has no result that could be assigned"),
    ("p = call twice(1);", "p", "`p` is a list, the result of `twice(n: int) -> r: int` is an int"),
]
FRONT = (
    "proc twice(n: int) -> r: int { r = n + n; }\nproc show(n: int) { skip; }\n"
    "proc main() {\n  var x: int; var count: int; var a: array; var p: list;\n  "
)


def told(text: bytes) -> Refusal:
    """The refusal of a text that cannot be read."""
    try:
        TextReader().read(text)
    except Fault as fault:
        return refusal_of_fault(text, fault)
    raise AssertionError(f"{text!r} is read")


def test_unexpected_words() -> None:
    """What is unexpected, what is wanted, and what could be meant."""
    for statement, word, words in UNEXPECTED:
        text = f"proc main() {{\n  {statement}\n}}\n".encode()
        refusal = told(text)
        place = text[refusal.span.start : refusal.span.end].decode()
        assert place == word and words in refusal.words, (statement, place, refusal.words)


def test_bytes() -> None:
    """A byte that begins no token is told with what could be meant by it."""
    for statement, byte, words in BYTES:
        text = f"proc main() {{\n  {statement}\n}}\n".encode()
        refusal = told(text)
        assert refusal.span.start == text.index(byte.encode()) and refusal.words.endswith(words), refusal
    assert "it is a byte order mark: save the text without one (BadByte)" in told(b"\xef\xbb\xbfproc main() { }").words
    assert told(b"proc main() { # }").words == "no token begins with this byte (BadByte)"


def test_checked_words() -> None:
    """Which name is unknown, and which kind is wrong: the place is within the statement that the server names."""
    client, _ = opened({"faults": "checks"}, FRONT + "\n}\n")
    for version, (statement, word, words) in enumerate(CHECKED, 2):
        client.change(URI, version, [{"text": FRONT + statement + "\n}\n"}])
        diagnostics = client.diagnostics(version)
        assert len(diagnostics) == 1 and words in diagnostics[0]["message"], (statement, diagnostics)
        where = diagnostics[0]["range"]
        assert where["start"]["line"] == 4 == where["end"]["line"]
        shown = f"  {statement}"[where["start"]["character"] : where["end"]["character"]]
        assert shown == word, (statement, shown)
    client.close()


def test_meant() -> None:
    """What could be meant is an action that puts it there."""
    client, diagnostics = opened({}, FRONT + "count = coutn + 1;\n}\n")
    params = {"textDocument": {"uri": URI}, "range": diagnostics[0]["range"], "context": {"diagnostics": []}}
    actions = client.request("textDocument/codeAction", params)
    assert actions[0]["title"] == "Write `count`" and actions[0]["kind"] == "quickfix", actions
    assert actions[0]["edit"]["changes"][URI] == [{"range": diagnostics[0]["range"], "newText": "count"}]
    client.close()


def test_all_unknown_names() -> None:
    """All names that are not declared are told, in the editor and by daig-check, and each can be mended."""
    text = FRONT + "count = coutn + 1;\n  x = cuont;\n  call shwo(other);\n}\n"
    client, diagnostics = opened({}, text)
    words = [it["message"].partition(";")[0].partition(" (")[0] for it in diagnostics]
    wanted = ["variable `coutn`", "variable `cuont`", "procedure `shwo`", "variable `other`"]
    assert words == [f"no {it} is declared" for it in wanted], diagnostics
    params = {"textDocument": {"uri": URI}, "range": diagnostics[2]["range"], "context": {"diagnostics": []}}
    actions = client.request("textDocument/codeAction", params)
    assert [(it["title"], it["diagnostics"]) for it in actions] == [("Write `show`", [diagnostics[2]])], actions
    client.close()
    with folder(a_imp=text) as here:
        found = check("--format", "json", "a.imp", where=here)
    assert found.status == 2 and [it["line"] for it in found.objects] == [5, 6, 7, 7], found
    assert len({str(it["fingerprint"]) for it in found.objects}) == 4, found


def test_open_brace() -> None:
    """A missing `}` points at the `{` that is open: the one whose lines say so."""
    inner = "proc main() {\n  var x: int;\n  while (x < 3) {\n    x = x + 1;\n  x = 1;\n}\n"
    for text, line in ((inner, 3), ("proc main() {\n  skip;\n", 1), (inner + "proc f() { }\n", 3),
                       ("proc main() {\n  if (1 < 2) {\n    skip;\n  }\n", 1)):  # fmt: skip
        refusal = told(text.encode())
        assert f"`{{` at line {line} is still open" in refusal.words, (text, refusal)
        assert refusal.related[0][0].start == text.index("{", sum(map(len, text.splitlines(True)[: line - 1])))


def test_declared_twice() -> None:
    """A second declaration points at the first one."""
    text = b"proc main() {\n  var x: int;\n  var x: list;\n}\n"
    program = TextReader().read(text)
    number_from_one(program)
    refusal = refusal_of_check(text, program, "Redeclared", 0, "main")
    assert refusal.span.start == text.rindex(b"x") and refusal.related[0][0].start == text.index(b"x"), refusal
