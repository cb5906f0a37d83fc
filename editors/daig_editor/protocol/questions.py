"""The questions that a client asks about a document, and what answers each."""
from __future__ import annotations

from typing import Awaitable, Callable

from daig_editor.protocol.actions import COMMANDS, actions
from daig_editor.protocol.client import Abilities
from daig_editor.protocol.completion import completions, signature_help
from daig_editor.protocol.diagnostics import diagnostics
from daig_editor.protocol.names import (
    definition,
    highlights,
    prepare_calls,
    prepare_rename,
    references,
    rename,
    symbols,
)
from daig_editor.protocol.shapes import (
    TOKEN_MODIFIERS,
    TOKEN_TYPES,
    folding_ranges,
    formatting,
    formatting_of_line,
    selection_ranges,
    semantic_tokens,
)
from daig_editor.protocol.states import code_lenses, hover, inlay_hints
from daig_editor.protocol.wire import SERVER_CANCELLED, Json, RpcError, member
from daig_editor.server.asking import Outdated
from daig_editor.server.document import Document
from daig_editor.server.ending import within

INCREMENTAL = 2
# Diagnostics that are asked for are answered within so many seconds: with a note that the work runs, where it does.
LONGEST_PULL = 1.5
Question = Callable[[Document, Json, Abilities], Awaitable[object]]


def capabilities(abilities: Abilities) -> Json:
    """What this server can do for a client."""
    legend = {"tokenTypes": TOKEN_TYPES, "tokenModifiers": TOKEN_MODIFIERS}
    pulled = {"diagnosticProvider": {"interFileDependencies": False, "workspaceDiagnostics": False}}
    return {
        "positionEncoding": "utf-8" if abilities.utf8 else "utf-16",
        "textDocumentSync": {"openClose": True, "change": INCREMENTAL, "save": {"includeText": True}},
        "hoverProvider": True,
        "inlayHintProvider": True,
        "codeLensProvider": {"resolveProvider": False},
        "documentSymbolProvider": True,
        "definitionProvider": True,
        "referencesProvider": True,
        "documentHighlightProvider": True,
        "renameProvider": {"prepareProvider": True},
        "callHierarchyProvider": True,
        "foldingRangeProvider": True,
        "selectionRangeProvider": True,
        "completionProvider": {"triggerCharacters": [".", ":"]},
        "signatureHelpProvider": {"triggerCharacters": ["(", ","]},
        "semanticTokensProvider": {"legend": legend, "full": True, "range": True},
        "documentFormattingProvider": True,
        "documentRangeFormattingProvider": True,
        "documentOnTypeFormattingProvider": {"firstTriggerCharacter": "}", "moreTriggerCharacter": [";", "\n"]},
        "workspaceSymbolProvider": True,
        "codeActionProvider": {"codeActionKinds": ["quickfix"]},
        "executeCommandProvider": {"commands": COMMANDS},
        **(pulled if abilities.pulls else {}),
    }


def _at(document: Document, params: Json) -> int:
    """The place that a question is about."""
    return document.text.place(params.get("position"))


def _range(document: Document, params: Json) -> tuple[int, int]:
    """The range that a question is about."""
    where = params.get("range")
    return document.text.place(member(where, "start")), document.text.place(member(where, "end"))


async def _hover(document: Document, params: Json, _: Abilities) -> object:
    return await hover(document, _at(document, params))


async def _hints(document: Document, params: Json, _: Abilities) -> object:
    return await inlay_hints(document, *_range(document, params))


async def _lenses(document: Document, _params: Json, _: Abilities) -> object:
    return await code_lenses(document)


async def _symbols(document: Document, _params: Json, _: Abilities) -> object:
    return symbols(document)


async def _definition(document: Document, params: Json, _: Abilities) -> object:
    return definition(document, _at(document, params))


async def _references(document: Document, params: Json, _: Abilities) -> object:
    return references(document, _at(document, params), member(params, "context", "includeDeclaration") is not False)


async def _highlights(document: Document, params: Json, _: Abilities) -> object:
    return highlights(document, _at(document, params))


async def _prepare_rename(document: Document, params: Json, _: Abilities) -> object:
    place = _at(document, params)
    await document.followed()
    return prepare_rename(document, place)


async def _rename(document: Document, params: Json, _: Abilities) -> object:
    place = _at(document, params)
    await document.followed()
    return rename(document, place, str(params.get("newName")))


async def _prepare_calls(document: Document, params: Json, _: Abilities) -> object:
    return prepare_calls(document, _at(document, params))


async def _folding(document: Document, _params: Json, _: Abilities) -> object:
    return folding_ranges(document)


async def _selection(document: Document, params: Json, _: Abilities) -> object:
    positions = params.get("positions")
    places = [document.text.place(it) for it in positions] if isinstance(positions, list) else []
    return selection_ranges(document, places)


async def _completion(document: Document, params: Json, abilities: Abilities) -> object:
    items = completions(document, _at(document, params), abilities.snippets)
    return {"isIncomplete": False, "items": items}


async def _signature(document: Document, params: Json, _: Abilities) -> object:
    return signature_help(document, _at(document, params))


async def _tokens(document: Document, _params: Json, _: Abilities) -> object:
    return semantic_tokens(document)


async def _tokens_of_range(document: Document, params: Json, _: Abilities) -> object:
    return semantic_tokens(document, *_range(document, params))


async def _format(document: Document, _params: Json, _: Abilities) -> object:
    return formatting(document)


async def _format_range(document: Document, params: Json, _: Abilities) -> object:
    return formatting(document, *_range(document, params))


async def _format_on_type(document: Document, params: Json, _: Abilities) -> object:
    return formatting_of_line(document, _at(document, params))


async def _actions(document: Document, params: Json, _: Abilities) -> object:
    start = document.text.place(member(params, "range", "start"))
    end = member(params, "range", "end")
    stop = document.text.place(end) if end else start
    await document.followed()
    return actions(document, start, stop, _told_diagnostics(params))


def _told_diagnostics(params: Json) -> list[Json]:
    """The diagnostics that the client asks for, which may be all of a line."""
    told = member(params, "context", "diagnostics")
    return [it for it in told if isinstance(it, dict)] if isinstance(told, list) else []


async def _diagnostic(document: Document, _params: Json, _: Abilities) -> object:
    try:
        await within(LONGEST_PULL, document.judged())  # of what comes later the client is told, and asks again
    except Outdated:
        raise RpcError(SERVER_CANCELLED, "the text has changed", {"retriggerRequest": True}) from None
    return {"kind": "full", "items": diagnostics(document)}


QUESTIONS: dict[str, Question] = {
    "textDocument/hover": _hover,
    "textDocument/inlayHint": _hints,
    "textDocument/codeLens": _lenses,
    "textDocument/documentSymbol": _symbols,
    "textDocument/definition": _definition,
    "textDocument/references": _references,
    "textDocument/documentHighlight": _highlights,
    "textDocument/prepareRename": _prepare_rename,
    "textDocument/rename": _rename,
    "textDocument/prepareCallHierarchy": _prepare_calls,
    "textDocument/foldingRange": _folding,
    "textDocument/selectionRange": _selection,
    "textDocument/completion": _completion,
    "textDocument/signatureHelp": _signature,
    "textDocument/semanticTokens/full": _tokens,
    "textDocument/semanticTokens/range": _tokens_of_range,
    "textDocument/formatting": _format,
    "textDocument/rangeFormatting": _format_range,
    "textDocument/onTypeFormatting": _format_on_type,
    "textDocument/codeAction": _actions,
    "textDocument/diagnostic": _diagnostic,
}
