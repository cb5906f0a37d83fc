"""The shape of a text: what can be folded, what a selection grows to, what each token is, and how it is laid out."""
from __future__ import annotations

from daig_editor.language.layout import indentation, layout_edits
from daig_editor.language.outline import Occurrence
from daig_editor.language.tokens import KINDS, Token
from daig_editor.language.tree import Span
from daig_editor.protocol.wire import Json
from daig_editor.server.document import Document

TOKEN_TYPES = ["keyword", "type", "function", "parameter", "variable", "property", "number", "operator", "comment"]
TOKEN_MODIFIERS = ["declaration"]
ROLES = {"procedure": "function", "parameter": "parameter", "result": "parameter", "local": "variable"}


def folding_ranges(document: Document) -> list[Json]:
    """Blocks, and comments over several lines."""
    text = document.text
    found: list[Json] = []
    for block in document.outline.blocks:
        first, last = text.line_of(block.start), text.line_of(max(block.start, block.end - 1))
        if block.closed and last - 1 > first:
            found.append({"startLine": first, "endLine": last - 1})
    for first, last in _comment_runs(document):
        if last > first:
            found.append({"startLine": first, "endLine": last, "kind": "comment"})
    return sorted(found, key=lambda it: (int(str(it["startLine"])), int(str(it["endLine"]))))


def _comment_runs(document: Document) -> list[tuple[int, int]]:
    """Lines one after the other that are comments alone."""
    runs: list[tuple[int, int]] = []
    for token in document.outline.tokens:
        line = document.text.line_of(token.span.start)
        if token.kind != "comment" or document.text.line(line).lstrip()[:2] != b"//":
            continue
        if runs and runs[-1][1] == line - 1:
            runs[-1] = (runs[-1][0], line)
        else:
            runs.append((line, line))
    return runs


def selection_ranges(document: Document, places: list[int]) -> list[Json]:
    """For each place the token there, the statement, the blocks around, the procedure, the text."""
    return [_selection(document, it) for it in places]


def _selection(document: Document, place: int) -> Json:
    """The ranges around a place, the innermost first."""
    outline = document.outline
    spans = [Span(0, len(document.text.data))]
    spans += [it.span for it in outline.procs if it.span.holds(place)]
    for block in sorted(outline.blocks, key=lambda it: it.start):
        if block.start <= place <= block.end:
            inner = block.start + 1
            spans += [Span(block.start, block.end), Span(inner, max(inner, block.end - block.closed))]
    found = document.good.program.at(place) if document.good and document.good.text is document.text else None
    if found and found[1]:
        spans += [found[1].span, found[1].head]
    spans += [it.span for it in outline.code if it.span.holds(place)][-1:]
    chosen: Json | None = None
    for span in sorted({it for it in spans if it.holds(place)}, key=lambda it: (it.start, -it.end)):
        if chosen is None or _within(document, span, chosen):
            parent: Json = {"parent": chosen} if chosen else {}
            chosen = {"range": document.text.range(span), **parent}
    assert chosen
    return chosen


def _within(document: Document, span: Span, parent: Json) -> bool:
    """Whether a span lies within a range, and is another one."""
    around = parent["range"]
    assert isinstance(around, dict)
    start, end = document.text.place(around["start"]), document.text.place(around["end"])
    return start <= span.start and span.end <= end and (start, end) != span


# ---------------------------------------------------------------------------------------------------------------------
# Tokens


def semantic_tokens(document: Document, start: int = 0, end: int | None = None) -> Json:
    """What each token is, as the protocol packs it: five numbers each, the place from the one before."""
    outline, text = document.outline, document.text
    names = {it.token.span.start: it for it in outline.occurrences}
    data: list[int] = []
    before = Token("", Span(0, 0), "end")
    last_line = last_character = 0
    for token in outline.tokens:
        kind, declares = _token_type(token, before, names.get(token.span.start))
        before = token
        if kind is None or token.span.end < start or (end is not None and token.span.start > end):
            continue
        first, last = text.units(token.span)
        line = text.line_of(token.span.start)
        data += (line - last_line, first - last_character if line == last_line else first, last - first)
        data += (TOKEN_TYPES.index(kind), 1 if declares else 0)
        last_line, last_character = line, first
    return {"data": data}


def _token_type(token: Token, before: Token, occurrence: Occurrence | None) -> tuple[str | None, bool]:
    """The type of a token, and whether it declares something; none for what editors do not colour."""
    if token.kind in ("comment", "number"):
        return token.kind, False
    if token.kind == "mark":
        return (None if token.word in "(){}[]:;,." else "operator"), False
    if occurrence and occurrence.declared:
        return ROLES[occurrence.declared.role], occurrence.declares
    if token.kind == "name" and before.word == ".":
        return "property", False
    if token.is_word():
        return ("type" if token.word in KINDS and before.word == ":" else "keyword"), False
    return ("variable" if token.kind == "name" else None), False


# ---------------------------------------------------------------------------------------------------------------------
# Layout


def formatting(document: Document, start: int = 0, end: int | None = None) -> list[Json]:
    """The edits of spaces that lay out a text, or those of them within a range."""
    edits = layout_edits(document.text.data)
    stop = len(document.text.data) if end is None else end
    return [
        {"range": document.text.range(span), "newText": text}
        for span, text in edits
        if span.start >= start and span.end <= stop
    ]


def formatting_of_line(document: Document, place: int) -> list[Json]:
    """The edits of spaces that lay out the line of a place up to it, as it is typed; no line break comes or goes."""
    text = document.text
    number = text.line_of(place)
    start, line = text.starts[number], text.line(number)
    first = start + len(line) - len(line.lstrip())
    space = indentation(text.data, Span(start, start + len(line)))
    if space is None:
        return []
    edits = [(Span(start, first), space)] if line[: first - start] != space.encode() else []
    edits += [(span, new) for span, new in layout_edits(text.data) if first < span.start and span.end <= place]
    return [{"range": text.range(span), "newText": new} for span, new in edits if "\n" not in new]
