"""What can be done at a place: a name put right, the causes of a finding shown, states narrowed to one call."""
from __future__ import annotations

from typing import Iterator

from daig_editor.language.tree import Placed, Proc, Span, Stmt
from daig_editor.protocol.diagnostics import diagnostics, place_of
from daig_editor.protocol.wire import INVALID_PARAMS, Json, RpcError
from daig_editor.server.document import Document
from daig_editor.server.findings import Finding

CHOOSE_CALL, ALL_CALLS = "daig.chooseCall", "daig.allCalls"
SHOW_CAUSES, HIDE_CAUSES = "daig.showCauses", "daig.hideCauses"
SERVER_PROGRAM = "daig.serverProgram"
COMMANDS = [CHOOSE_CALL, ALL_CALLS, SHOW_CAUSES, HIDE_CAUSES, SERVER_PROGRAM]


def actions(document: Document, start: int, end: int, about: list[Json]) -> list[Json]:
    """What can be done at a place: edits, then commands. What is done for diagnostics is done for these alone, wherever
    they stand; where there are none, for those at the place."""
    told = [*_repairs(document, start, end, about)]
    position = document.text.position(start)
    found = _finding_of(document, about) if about else finding_at(document, start, end)
    if found:
        where = document.text.position(found[1].start)
        told.append(_command("Show what this hangs on", SHOW_CAUSES, document.uri, where))
    if document.shown:
        told.append(_command("Hide what it hangs on", HIDE_CAUSES, document.uri))
    call = call_at(document, start)
    if call:
        title = f"Show states of {call[1].callee} from this call alone"
        told.append(_command(title, CHOOSE_CALL, document.uri, position))
    if document.calls.string:
        told.append(_command("Show states from all calls", ALL_CALLS, document.uri))
    return told


def _command(title: str, command: str, *arguments: object) -> Json:
    """A command that can be chosen."""
    return {"title": title, "command": command, "arguments": list(arguments)}


def _repairs(document: Document, start: int, end: int, about: list[Json]) -> list[Json]:
    """What could be meant in the place of a word that is refused."""
    told: list[Json] = []
    for refusal, diagnostic in zip(document.refusal.all if document.refusal else (), diagnostics(document)):
        is_here = refusal.span.start <= end and start <= refusal.span.end
        if not (_is_among(diagnostic, about) if about else is_here):
            continue
        for word in refusal.meant:
            edit = {"changes": {document.uri: [{"range": document.text.range(refusal.span), "newText": word}]}}
            told.append({"title": f"Write `{word}`", "kind": "quickfix", "diagnostics": [diagnostic], "edit": edit})
    return told


def _is_among(diagnostic: Json, about: list[Json]) -> bool:
    """Whether a client names a diagnostic: by its place and its rule, or its words where it has none."""
    named = "code" if "code" in diagnostic else "message"
    return any(it.get("range") == diagnostic["range"] and it.get(named) == diagnostic[named] for it in about)


def _finding_of(document: Document, about: list[Json]) -> tuple[Placed, Span] | None:
    """The first finding that a client names, and its place in the text."""
    for finding, span in _findings(document):
        if _is_among({"range": document.text.range(span), "code": finding.rule}, about):
            return finding.place, span
    return None


def finding_at(document: Document, start: int, end: int) -> tuple[Placed, Span] | None:
    """The first finding with a statement that a range touches, and its place in the text."""
    shift = document.shift()
    for finding, span in _findings(document):
        head = shift.span(finding.place.head) if shift else None
        if head and head.start <= end and start <= head.end:
            return finding.place, span
    return None


def _findings(document: Document) -> Iterator[tuple[Finding, Span]]:
    """The findings that hang on something, and their places in the text."""
    report, shift = document.report, document.shift()
    if report is None or shift is None or document.good is None or report.text is not document.good.text:
        return
    for finding in report.findings:
        span = place_of(document, shift, finding)
        if span and finding.verdict != "dead":
            yield finding, span


def call_at(document: Document, place: int) -> tuple[Proc, Stmt] | None:
    """The call at a place, with the procedure that holds it."""
    inside = document.good_place(place)
    found = document.good.program.at(inside) if document.good and inside is not None else None
    if found and found[1] and found[1].stmt.callee:
        return found[0], found[1].stmt
    return None


async def execute(document: Document, command: object, arguments: list[object]) -> object:
    """Does a command on a document; the answer is its result."""
    if command == SERVER_PROGRAM:
        return await document.session.told()
    if command == ALL_CALLS:
        document.calls.clear()
    elif command == HIDE_CAUSES:
        document.shown = None
    elif command == CHOOSE_CALL:
        call = call_at(document, _place(document, arguments))
        if call is None:
            raise RpcError(INVALID_PARAMS, "there is no call")
        document.calls.choose(*call)
    elif command == SHOW_CAUSES:
        place = _place(document, arguments)
        found = finding_at(document, place, place)
        if found is None:
            raise RpcError(INVALID_PARAMS, "there is no finding")
        document.shown = await document.causes(found[0])
    else:
        raise RpcError(INVALID_PARAMS, "no such command")
    return None


def _place(document: Document, arguments: list[object]) -> int:
    """The place that the second argument says."""
    return document.text.place(arguments[1] if len(arguments) > 1 else None)
