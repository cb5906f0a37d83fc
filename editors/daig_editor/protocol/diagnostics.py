"""The diagnostics of a document: what its text is refused for, what may fail in it, and why nothing is known of it."""
from __future__ import annotations

from daig_editor.language.places import Shift
from daig_editor.language.tree import Placed, Span
from daig_editor.language.words import finding_words
from daig_editor.protocol.wire import Json
from daig_editor.server.choices import Faults
from daig_editor.server.document import Document
from daig_editor.server.findings import Finding, Report

ERROR, WARNING, INFORMATION, HINT = 1, 2, 3, 4
UNNECESSARY = 1
SOURCE = "daig"
RUNNING = "the analysis still runs: what may fail in the present text is not known yet"
PARTLY = "the analysis still runs: what fails in a run is shown; what else may fail in the present text is not known yet"
SO_FAR = "; found before the end of the analysis"
NEW = "; new with the last change"
MOST_RELATED = 20


def diagnostics(document: Document) -> list[Json]:
    """What is said of the present text, and the findings of the last report where they still have a place."""
    told: list[Json] = []
    for refusal in document.refusal.all if document.refusal else ():
        more: Json = {"data": {"meant": list(refusal.meant)}} if refusal.meant else {}
        related = [_related(document, span, words) for span, words in refusal.related]
        told.append(_diagnostic(document, refusal.span, ERROR, refusal.words, related, **more))
    if document.trouble:
        severity = WARNING if document.trouble.by_wish else ERROR
        told.append(_diagnostic(document, document.trouble.span, severity, document.trouble.words, code="trouble"))
    elif document.running:
        words = PARTLY if document.partial else RUNNING
        told.append(_diagnostic(document, Span(0, 0), INFORMATION, words, code="running"))
    found = _reported(document, document.partial) if document.partial else []
    if document.report:
        places = [it["range"] for it in found]
        found += [it for it in _reported(document, document.report) if it["range"] not in places]
    return told + found


def _reported(document: Document, report: Report) -> list[Json]:
    """The findings of a report, and the loop that used up its budget."""
    told = []
    shift = Shift.between(report.text.data, document.text.data)
    over = shift.span(report.over.loop.head) if report.over else None
    if report.over and over and document.options.tells("budget"):
        told.append(_diagnostic(document, over, WARNING, report.over.words, code="budget"))
    for finding in report.findings:
        span = place_of(document, shift, finding)
        if span and document.options.tells(finding.rule):
            told.append(_finding(document, shift, finding, span, report.partial))
    if document.shown and not report.partial:
        told += _shown(document, shift, document.shown.of, document.shown.causes)
    return told


def place_of(document: Document, shift: Shift, finding: Finding) -> Span | None:
    """The part of the present text that a finding is about, where its statement stands there as it was."""
    return shift.span(finding.place.head)


def _diagnostic(
    document: Document, span: Span, severity: int, message: str, related: list[Json] | None = None, **more: object
) -> Json:
    """One diagnostic."""
    if related:
        more["relatedInformation"] = related
    return {"range": document.text.range(span), "severity": severity, "source": SOURCE, "message": message, **more}


def _related(document: Document, span: Span, message: str) -> Json:
    """Something beside a diagnostic."""
    return {"location": {"uri": document.uri, "range": document.text.range(span)}, "message": message}


def _finding(document: Document, shift: Shift, finding: Finding, span: Span, partial: bool) -> Json:
    """A fault that may come, or comes in a run that was seen, or a statement that is never reached."""
    words = finding_words(finding.rule, finding.verdict, finding.inputs, finding.ends, finding.alone)
    words += (NEW if finding.is_new else "") + (SO_FAR if partial else "")
    if finding.verdict == "dead":
        return _diagnostic(document, span, HINT, words, code=finding.rule, tags=[UNNECESSARY])
    beside = [*finding.path, *((it, "hangs on this") for it in finding.causes[:MOST_RELATED])]
    places = [(shift.span(it.head), said) for it, said in beside]
    related = [_related(document, place, said) for place, said in places if place]
    return _diagnostic(document, span, _severity(document, finding), words, related, code=finding.rule)


def _severity(document: Document, finding: Finding) -> int:
    """How bad a fault is that may come, or comes."""
    if finding.is_certain:
        return ERROR
    is_slight = finding.is_slight and document.options.faults is not Faults.STRICT
    return INFORMATION if is_slight else WARNING


def _shown(document: Document, shift: Shift, of: Placed, causes: list[Placed]) -> list[Json]:
    """The statements that a finding hangs on, each as a note of its own."""
    here = shift.span(of.head)
    line = document.text.line_of(here.start) + 1 if here else 0
    places = [shift.span(it.head) for it in causes]
    words = f"what is known at line {line} hangs on this"
    return [_diagnostic(document, it, INFORMATION, words, code="why") for it in places if it and line]
