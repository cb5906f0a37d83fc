"""Why a file is no program, as a finding. What says so is loaded where a file is none."""
from __future__ import annotations

from typing import TYPE_CHECKING

from daig_editor.language.text import TextReader
from daig_editor.language.tokens import Fault
from daig_editor.language.tree import Program
from daig_editor.reports.finding import Finding, Key, Level
from daig_editor.server.serving import Reply

if TYPE_CHECKING:
    from daig_editor.language.refusals import Refusal


def read_program(data: bytes) -> tuple[Program | None, Fault | None]:
    """The program of a text, or its fault."""
    try:
        return TextReader().read(data), None
    except Fault as fault:
        return None, fault


def refused(data: bytes, program: Program | None, fault: Fault | None, reply: Reply) -> list[Finding]:
    """The findings of a server's refusal of a text."""
    from daig_editor.language.refusals import refusal_of_reply

    found = refusal_of_reply(data, program, fault, reply).all
    return [_finding(it, str(reply.get("name")), number) for number, it in enumerate(found)]


def too_long() -> Finding:
    """The finding of a text that is too long."""
    from daig_editor.language.refusals import refusal_of_size

    return _finding(refusal_of_size(), "Size")


def _finding(refusal: Refusal, name: str, ordinal: int = 0) -> Finding:
    """The finding of a refusal."""
    key = Key("", "", name, ordinal)
    return Finding("source", Level.ERROR, refusal.span, refusal.words, key, related=refusal.related)
