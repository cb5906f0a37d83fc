"""What is known at places of the text: hovers, hints at loops, and lenses over procedures."""
from __future__ import annotations

from daig_editor.language.tree import Placed, Proc, Span, Stmt, StmtKind
from daig_editor.language.words import state_lines
from daig_editor.protocol.wire import Json
from daig_editor.server.document import Document
from daig_editor.server.process import Reply

LONGEST_HINT = 80
# What stands before states while the text is no program.
OF_LAST_PROGRAM, BEFORE = "as it was before the text was broken:", "before: "
Asked = list[tuple[str, str]]


async def hover(document: Document, place: int) -> Json | None:
    """The states around the statement at a place, at an empty place of a block, or at a procedure's end."""
    place = _first_word(document, place)
    await document.followed()
    inside, good = document.good_place(place), document.good
    if good is None or inside is None:
        return None
    found = good.program.at(inside)
    if found is None:
        return None
    proc, here = found
    body = good.text.data.find(b"{", proc.name_span.end)
    asked, span = _asked(proc, here, inside, body)
    if not asked:
        return None
    string = document.calls.within(proc)
    lines = [OF_LAST_PROGRAM + "\n"] if document.refusal else []
    lines += [_call_line(document, string)] if string else []
    for words, at in asked:
        lines += _told(document, words, await document.state(at, string))
    shift = document.shift()
    shown = shift.span(span) if shift else None
    contents = {"kind": "markdown", "value": "\n".join(lines)}
    return {"contents": contents, **({"range": document.text.range(shown)} if shown else {})}


def _first_word(document: Document, place: int) -> int:
    """A place in the space that a line begins with stands for the line's first word, where it has one."""
    number = document.text.line_of(place)
    line, start = document.text.line(number), document.text.starts[number]
    first = start + len(line) - len(line.lstrip())
    return first if place < first < start + len(line) else place


def _asked(proc: Proc, here: Placed | None, place: int, body: int) -> tuple[Asked, Span]:
    """What is asked at a place of a procedure, whose `{` is at `body`: in words and in the server's; and its span."""
    if here and here.head.holds(place):
        return _points_of(here.stmt), here.head
    if proc.name_span.holds(place):
        return [("at the end", f"end {proc.name}")], proc.name_span
    between = _between(proc, here, place) if body < place < proc.span.end else ""
    return ([("here", between)] if between else []), Span(place, place)


def _between(proc: Proc, around: Placed | None, place: int) -> str:
    """The point between two statements of a block, in the server's words."""
    blocks = [proc.body]
    if around:
        blocks = [around.stmt.then, around.stmt.other]
        if around.stmt.other and place >= around.base + around.stmt.other[0].span.start:
            blocks = [around.stmt.other]
    best = ""
    starts = dict(zip(map(id, proc.body), proc.starts)) if not around else {}
    for block in blocks:
        for stmt in block:
            base = around.base if around else starts[id(stmt)]
            if base + stmt.span.end <= place:
                best = f"after {stmt.number}"
            elif not best:
                return f"before {stmt.number}"
    return best


def _points_of(stmt: Stmt) -> Asked:
    """The points of a statement."""
    before, after = ("before", f"before {stmt.number}"), ("after", f"after {stmt.number}")
    if stmt.kind is StmtKind.WHILE:
        return [before, ("each time at the head", f"head {stmt.number}"), after]
    return [before, after]


def _call_line(document: Document, string: list[int]) -> str:
    """The chosen calls, the outermost first."""
    return "called from " + ", then ".join(f"line {document.session.line_of(it)}" for it in string) + "\n"


def _told(document: Document, words: str, reply: Reply) -> list[str]:
    """A reply on a state, as a line or as several."""
    lines = reply_lines(document, reply)
    if len(lines) == 1:
        return [f"- **{words}:** {lines[0]}"]
    return [f"- **{words}:**", *(f"  - {it}" for it in lines)]


def reply_lines(document: Document, reply: Reply) -> list[str]:
    """A reply on a state in words."""
    if "state" in reply:
        return state_lines(str(reply["state"]))
    if "over" in reply:
        return [document.over_text(reply)]
    if reply.get("refused") == 10:
        return ["never called"]
    return [f"refused ({reply.get('refused')})"]


# ---------------------------------------------------------------------------------------------------------------------
# Hints and lenses


async def inlay_hints(document: Document, start: int, end: int) -> list[Json]:
    """The state at the head of each loop within a range, after the loop's `{`."""
    await document.followed()
    good, shift = document.good, document.shift()
    if good is None or shift is None:
        return []
    hints: list[Json] = []
    for proc in good.program.procs:
        for place in proc.placed():
            span = shift.span(place.head) if place.stmt.kind is StmtKind.WHILE else None
            if span is None or span.end < start or span.start > end:
                continue
            reply = await document.state(f"head {place.stmt.number}", document.calls.within(proc))
            hints.append(_hint(document, span, reply))
    return hints


def _hint(document: Document, span: Span, reply: Reply) -> Json:
    """The hint of one loop; a long one is cut, and whole in its tooltip."""
    tooltip = "; ".join(reply_lines(document, reply))
    whole = (BEFORE if document.refusal else "") + (tooltip if "over" not in reply else "budget used up")
    label = whole if len(whole) <= LONGEST_HINT else whole[: LONGEST_HINT - 1] + "…"
    return {"position": document.text.position(span.end), "label": label, "tooltip": tooltip, "paddingLeft": True}


async def code_lenses(document: Document) -> list[Json]:
    """How many calls a procedure has, and how its checks stand."""
    await document.judged()
    outline, report = document.outline, document.report
    lenses = []
    for proc in outline.procs:
        calls = sum(it.calls for it in outline.occurrences if it.declared and it.declared.variable == proc.name)
        words = [_many(calls, "call")] if proc.name.name != "main" else []
        tally = report.tallies.get(proc.name.name) if report and not document.refusal else None
        if tally and tally.checks:
            rest = tally.checks - tally.safe
            words.append(_many(tally.checks, "check") + (f", {rest} not safe" if rest else ", safe"))
        if words:
            command = {"title": " · ".join(words), "command": ""}
            lenses.append({"range": document.text.range(proc.name.span), "command": command})
    return lenses


def _many(count: int, word: str) -> str:
    """A count with its word."""
    return f"{count} {word}{'' if count == 1 else 's'}"
