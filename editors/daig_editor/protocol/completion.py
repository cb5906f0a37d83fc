"""What can be written at a place, and how a procedure is called there."""
from __future__ import annotations

from daig_editor.language.outline import Outline, ProcOutline
from daig_editor.language.tokens import KINDS, Token
from daig_editor.protocol.wire import Json
from daig_editor.server.document import Document

FUNCTION, FIELD, VARIABLE, KEYWORD, TYPE = 3, 5, 6, 14, 25
SNIPPET = 2
STATEMENTS = {
    "if": "if (${1:condition}) {\n\t$0\n}",
    "while": "while (${1:condition}) {\n\t$0\n}",
    "assert": "assert ${1:condition};",
    "skip": "skip;",
    "call": "call $0",
}
RIGHT_SIDES = ("input", "array", "null", "new", "call", "len")
AFTER_VALUE = frozenset([")", "]"])


def completions(document: Document, place: int, snippets: bool) -> list[Json]:
    """What can be written at a place; the client leaves out what does not begin as the word there does."""
    outline = document.outline
    if outline.comment_at(place):
        return []
    before = _before(outline, place)
    proc = outline.proc_at(place)
    last = before[-1].word if before else ""
    if proc is None or place <= proc.span.start:
        return [_item("proc", KEYWORD)]
    if last == ":":
        return [_item(it, TYPE) for it in KINDS]
    if last == ".":
        return [_item("next", FIELD, "list"), _item("item", FIELD, "int")]
    if last == "call":
        return [_call_item(it, snippets) for it in _callable(outline, proc)]
    if last in ("proc", "var", "->") or place <= proc.body:
        return []
    if last in (";", "{", "}"):
        return _statements(outline, proc, before, snippets)
    if last == "else":
        return [_item("{", KEYWORD)]
    if last == "len":
        return _variables(proc, "array")
    return _values(proc, before)


def _before(outline: Outline, place: int) -> list[Token]:
    """The tokens before a place, without the word that is being written there."""
    index = outline.index_before(place)
    if index and outline.code[index - 1].kind == "name" and outline.code[index - 1].span.end == place:
        index -= 1
    return outline.code[max(0, index - 400) : index]


def _item(label: str, kind: int, detail: str = "", snippet: str = "") -> Json:
    """One thing that can be written."""
    item: Json = {"label": label, "kind": kind}
    if detail:
        item["detail"] = detail
    if snippet:
        item["insertText"], item["insertTextFormat"] = snippet, SNIPPET
    return item


def _callable(outline: Outline, proc: ProcOutline) -> list[ProcOutline]:
    """The procedures that one may call: those that stand before it."""
    return [it for it in outline.procs if it.name.name and it.span.start < proc.span.start]


def _call_item(proc: ProcOutline, snippets: bool) -> Json:
    """A call of a procedure."""
    params = [it.name for it in proc.of_role("parameter")]
    arguments = ", ".join(f"${{{number}:{name}}}" for number, name in enumerate(params, 1))
    return _item(proc.name.name, FUNCTION, proc.signature, f"{proc.name.name}({arguments})" if snippets else "")


def _variables(proc: ProcOutline, kind: str = "") -> list[Json]:
    """The variables of a procedure, or those of a kind."""
    found = [it.variable for it in proc.named.values() if kind in ("", it.variable.kind)]
    return [_item(it.name, VARIABLE, it.kind) for it in found]


def _statements(outline: Outline, proc: ProcOutline, before: list[Token], snippets: bool) -> list[Json]:
    """What a statement can begin with."""
    items = [_item(word, KEYWORD, "", text if snippets else "") for word, text in STATEMENTS.items()]
    if before[-1].word == "}":
        items.append(_item("else", KEYWORD))
    if _in_declarations(before):
        items.append(_item("var", KEYWORD))
    if _in_loop(before):
        items.append(_item("break", KEYWORD))
    return items + _variables(proc)


def _in_declarations(before: list[Token]) -> bool:
    """Whether no statement stands in front: the last `;` ends a declaration, or the head has just ended."""
    for token in reversed(before[:-1]):
        if token.word in (";", "{", "}"):
            return False
        if token.word in ("var", "proc"):
            return True
    return False


def _in_loop(before: list[Token]) -> bool:
    """Whether a `while` is around: its block is open."""
    depth = 0
    for index in range(len(before) - 1, -1, -1):
        word = before[index].word
        depth += (word == "}") - (word == "{")
        if word == "while" and depth < 0:
            return True
        if word in ("if", "else") and depth < 0:
            depth = 0
        if word == "proc":
            return False
    return False


def _values(proc: ProcOutline, before: list[Token]) -> list[Json]:
    """What a value can begin with; straight after `=` also what stands alone there."""
    last = before[-1]
    if last.kind == "number" or last.is_name() or last.word in AFTER_VALUE:
        return []
    if last.word == "=":
        return _variables(proc) + [_item(it, KEYWORD) for it in RIGHT_SIDES]
    return _variables(proc) + [_item("len", KEYWORD), _item("null", KEYWORD)]


# ---------------------------------------------------------------------------------------------------------------------
# Calls


def signature_help(document: Document, place: int) -> Json | None:
    """How the procedure whose arguments are written at a place is called, and which argument it is."""
    outline = document.outline
    index = outline.index_before(place)
    depth = argument = 0
    for at in range(index - 1, max(0, index - 400), -1):
        word = outline.code[at].word
        if word in (";", "{", "}"):
            return None
        depth += (word == ")") - (word == "(")
        argument += word == "," and depth == 0
        if depth < 0:
            if at >= 2 and outline.code[at - 2].word == "call":
                return _signature(outline.called.get(outline.code[at - 1].word), argument)
            argument = depth = 0
    return None


def _signature(proc: ProcOutline | None, argument: int) -> Json | None:
    """The head of a procedure with its parameters."""
    if proc is None:
        return None
    label = f"{proc.name.name}{proc.signature}"
    parameters = [{"label": it.text} for it in proc.of_role("parameter")]
    signature = {"label": label, "parameters": parameters, "activeParameter": argument}
    return {"signatures": [signature], "activeSignature": 0}
