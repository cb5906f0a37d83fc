"""Answers as a client can take them: in the protocol's plainer form where it reads no other, and never too long."""
from __future__ import annotations

import re
from typing import Callable, Iterator

from daig_editor.language.tree import Span
from daig_editor.protocol.client import Abilities
from daig_editor.protocol.diagnostics import INFORMATION, SOURCE
from daig_editor.protocol.wire import Json
from daig_editor.server.document import Document

# So many diagnostics are in one message, the worst first, with so many places beside them in all.
MOST_TOLD, MOST_PLACES = 500, 500
MORE = "{} more findings are not shown: daig-check tells all"
BOLD = re.compile(r"^( *- )\*\*(.*?)\*\*", re.M)


def fitted(method: str, answer: object, document: Document, abilities: Abilities) -> object:
    """The answer to a request as a client can take it."""
    fit = _FITS.get(method)
    return fit(answer, document, abilities) if fit and answer else answer


def fitted_diagnostics(told: list[Json], document: Document, abilities: Abilities) -> list[Json]:
    """The worst of some diagnostics, in their order, and how many are left out, without what the client cannot take."""
    worst = sorted(range(len(told)), key=lambda it: int(str(told[it]["severity"])))[:MOST_TOLD]
    places, related = MOST_PLACES, {}
    for index in worst:
        given = told[index].get("relatedInformation")
        related[index] = given[:places] if isinstance(given, list) and abilities.related else []
        places -= len(related[index])
    left_out = {"relatedInformation"} if abilities.tags else {"relatedInformation", "tags"}
    found: list[Json] = []
    for index in sorted(worst):
        plain = {name: value for name, value in told[index].items() if name not in left_out}
        found.append({**plain, "relatedInformation": related[index]} if related[index] else plain)
    if len(told) > MOST_TOLD:
        place, words = document.text.range(Span(0, 0)), MORE.format(len(told) - MOST_TOLD)
        found.append({"range": place, "severity": INFORMATION, "source": SOURCE, "message": words, "code": "more"})
    return found


def _hover(answer: object, _: Document, abilities: Abilities) -> object:
    """A hover, without marks where the client shows none."""
    if abilities.markdown or not isinstance(answer, dict):
        return answer
    words = BOLD.sub(r"\1\2", str(answer["contents"]["value"]))
    return {**answer, "contents": {"kind": "plaintext", "value": words}}


def _symbols(answer: object, document: Document, abilities: Abilities) -> object:
    """The symbols of a file, one after the other where the client knows none within others."""
    return answer if abilities.nested_symbols else list(_flat(answer, document, ""))


def _flat(symbols: object, document: Document, around: str) -> Iterator[Json]:
    """Symbols, and those within them."""
    for it in symbols if isinstance(symbols, list) else []:
        place = {"uri": document.uri, "range": it["range"]}
        within = {"containerName": around} if around else {}
        yield {"name": it["name"], "kind": it["kind"], "location": place, **within}
        yield from _flat(it.get("children"), document, str(it["name"]))


def _actions(answer: object, _: Document, abilities: Abilities) -> object:
    """What can be done, without edits where the client takes commands alone."""
    found = answer if isinstance(answer, list) else []
    return found if abilities.edits_in_actions else [it for it in found if "edit" not in it]


def _pulled(answer: object, document: Document, abilities: Abilities) -> object:
    """Diagnostics that the client asked for."""
    return {**answer, "items": fitted_diagnostics(answer["items"], document, abilities)} if isinstance(answer, dict) else answer


_FITS: dict[str, Callable[[object, Document, Abilities], object]] = {
    "textDocument/hover": _hover,
    "textDocument/documentSymbol": _symbols,
    "textDocument/codeAction": _actions,
    "textDocument/diagnostic": _pulled,
}
