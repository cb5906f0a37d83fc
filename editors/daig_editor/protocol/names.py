"""The names of a text: where they are declared and used, how they are changed, and which procedure calls which."""
from __future__ import annotations

import re

from daig_editor.language.outline import Declared, Occurrence, ProcOutline
from daig_editor.language.places import SourceText
from daig_editor.language.tokens import LONGEST_NAME, RESERVED
from daig_editor.language.tree import Span
from daig_editor.protocol.wire import REQUEST_FAILED, Json, RpcError
from daig_editor.server.document import Document

SYMBOL_FUNCTION, SYMBOL_VARIABLE = 12, 13
HIGHLIGHT_READ, HIGHLIGHT_WRITE = 2, 3


def symbols(document: Document) -> list[Json]:
    """The procedures with their variables."""
    return [_proc_symbol(document, it) for it in document.outline.procs if it.name.name]


def _proc_symbol(document: Document, proc: ProcOutline) -> Json:
    """A procedure with its variables."""
    return {
        "name": proc.name.name,
        "detail": proc.signature,
        "kind": SYMBOL_FUNCTION,
        "range": document.text.range(proc.span),
        "selectionRange": document.text.range(proc.name.span),
        "children": [_variable_symbol(document.text, it) for it in proc.variables],
    }


def _variable_symbol(text: SourceText, declared: Declared) -> Json:
    """A variable."""
    place = text.range(declared.variable.span)
    name, kind = declared.variable.name, declared.variable.kind
    return {"name": name, "detail": kind, "kind": SYMBOL_VARIABLE, "range": place, "selectionRange": place}


def _named_at(document: Document, place: int) -> Occurrence | None:
    """The name at a place, where it is declared."""
    found = document.outline.occurrence_at(place)
    return found if found and found.declared else None


def definition(document: Document, place: int) -> Json | None:
    """Where the procedure that is called at a place, or the variable there, is declared."""
    found = _named_at(document, place)
    return _location(document, found.declared.variable.span) if found and found.declared else None


def _location(document: Document, span: Span) -> Json:
    """A place in the file."""
    return {"uri": document.uri, "range": document.text.range(span)}


def references(document: Document, place: int, with_declaration: bool) -> list[Json]:
    """Where the name at a place is used."""
    return [_location(document, it.token.span) for it in _same(document, place) if with_declaration or not it.declares]


def _same(document: Document, place: int) -> list[Occurrence]:
    """All names that stand for what the name at a place stands for."""
    found = _named_at(document, place)
    return document.outline.same(found.declared) if found and found.declared else []


def highlights(document: Document, place: int) -> list[Json]:
    """The uses of the name at a place; those that set it are told apart."""
    code = document.outline.code
    told = []
    for it in _same(document, place):
        index = document.outline.index_before(it.token.span.end)
        after = code[index].word if index < len(code) else ""
        kind = HIGHLIGHT_WRITE if it.declares or after == "=" else HIGHLIGHT_READ
        told.append({"range": document.text.range(it.token.span), "kind": kind})
    return told


# ---------------------------------------------------------------------------------------------------------------------
# Renaming


def prepare_rename(document: Document, place: int) -> Json:
    """The name that would be changed."""
    found = _renamed(document, place)
    return {"range": document.text.range(found.token.span), "placeholder": found.token.word}


def rename(document: Document, place: int, new_name: str) -> Json:
    """The edits that give all that stands for the same another name; refused where a name would mean another thing."""
    found = _renamed(document, place)
    assert found.declared
    _test_name(document, found, new_name)
    edits = [
        {"range": document.text.range(it.token.span), "newText": new_name}
        for it in document.outline.same(found.declared)
    ]
    return {"changes": {document.uri: edits}}


def _renamed(document: Document, place: int) -> Occurrence:
    """The name at a place, where it can be changed."""
    found = _named_at(document, place)
    if found is None or found.declared is None:
        raise RpcError(REQUEST_FAILED, "there is no declared name")
    if document.refusal:
        raise RpcError(REQUEST_FAILED, "the text is no program: names are not changed in it")
    if found.declared.role == "procedure" and found.token.word == "main":
        raise RpcError(REQUEST_FAILED, "the last procedure has to be `main`")
    return found


def _test_name(document: Document, found: Occurrence, name: str) -> None:
    """Refuses a new name that is none, or that is taken."""
    assert found.declared
    if not re.fullmatch(r"[A-Za-z_][A-Za-z0-9_]*", name) or len(name) > LONGEST_NAME:
        words = f"a name is a letter or `_`, then letters, digits and `_`, at most {LONGEST_NAME} in all"
        raise RpcError(REQUEST_FAILED, words)
    if name in RESERVED:
        raise RpcError(REQUEST_FAILED, f"`{name}` is a word of the language")
    if found.declared.role == "procedure":
        taken = name in document.outline.called
    else:
        proc = document.outline.proc_at(found.token.span.start)
        taken = proc is not None and name in proc.named
    if taken and name != found.token.word:
        raise RpcError(REQUEST_FAILED, f"`{name}` is declared already")


# ---------------------------------------------------------------------------------------------------------------------
# Which procedure calls which


def prepare_calls(document: Document, place: int) -> list[Json] | None:
    """The procedure whose name is at a place."""
    found = _named_at(document, place)
    if found is None or found.declared is None or found.declared.role != "procedure":
        return None
    return [_call_item(document, document.outline.called[found.token.word])]


def _call_item(document: Document, proc: ProcOutline) -> Json:
    """A procedure as an item of the call hierarchy."""
    return {
        "name": proc.name.name,
        "kind": SYMBOL_FUNCTION,
        "detail": proc.signature,
        "uri": document.uri,
        "range": document.text.range(proc.span),
        "selectionRange": document.text.range(proc.name.span),
    }


def incoming_calls(document: Document, name: str) -> list[Json]:
    """The procedures that call one, with the places."""
    found: list[Json] = []
    for proc in document.outline.procs:
        places = [it for it in _calls_in(document, proc) if it.token.word == name]
        if places:
            ranges = [document.text.range(it.token.span) for it in places]
            found.append({"from": _call_item(document, proc), "fromRanges": ranges})
    return found


def outgoing_calls(document: Document, name: str) -> list[Json]:
    """The procedures that one calls, with the places."""
    caller = document.outline.called.get(name)
    places: dict[str, list[Json]] = {}
    for it in _calls_in(document, caller) if caller else []:
        if it.declared:
            places.setdefault(it.token.word, []).append(document.text.range(it.token.span))
    called = document.outline.called
    return [{"to": _call_item(document, called[it]), "fromRanges": ranges} for it, ranges in places.items()]


def _calls_in(document: Document, proc: ProcOutline) -> list[Occurrence]:
    """The calls in a procedure."""
    return [it for it in document.outline.occurrences if it.calls and proc.span.holds(it.token.span.start)]
