"""The report as one page: the texts with what is known beside them. No script, and nothing is loaded from elsewhere."""
from __future__ import annotations

from html import escape
from typing import Iterator, TypeVar

from daig_editor import VERSION
from daig_editor.language.places import SourceText
from daig_editor.language.records import replace
from daig_editor.language.tree import Span
from daig_editor.reports.finding import CheckedFile, Finding, Level, StateLine
from daig_editor.reports.report import CANNOT_FAIL, Totals
from daig_editor.reports.shown import shown
from daig_editor.reports.text import details
from daig_editor.reports.tool import NAME

STYLE = """
:root { color-scheme: light dark; --text: #1d2430; --faint: #6b7688; --page: #fff; --line: #e3e7ee; --card: #f6f8fb;
  --error: #c62828; --warning: #b25e00; --note: #3a6ea5; --safe: #2e7d32;
  --error-row: #fdecec; --warning-row: #fff4e0; --note-row: #eef4fb; }
@media (prefers-color-scheme: dark) { :root { --text: #e4e8ef; --faint: #8f9bb0; --page: #14181f; --line: #2a313d;
  --card: #1b212b; --error: #ff8a80; --warning: #ffb74d; --note: #82b1ff; --safe: #81c784;
  --error-row: #3a1d20; --warning-row: #372a15; --note-row: #1b2a3d; } }
body { font: 15px/1.5 system-ui, sans-serif; color: var(--text); background: var(--page); margin: 2rem auto;
  max-width: 100rem; padding: 0 1.5rem; }
h1 { font-size: 1.4rem; margin: 0; } h2 { font-size: 1.1rem; margin: 2.5rem 0 .5rem; }
a { color: inherit; text-decoration: none; } a:hover { text-decoration: underline; }
p.sum { color: var(--faint); margin: .25rem 0 1.5rem; }
table { border-collapse: collapse; } table.index td, table.index th { padding: .2rem .9rem .2rem 0; text-align: right; }
table.index th { color: var(--faint); font-weight: 500; font-size: .85rem; border-bottom: 1px solid var(--line); }
table.index td:first-child, table.index th:first-child { text-align: left; }
table.index td:first-child { font-family: ui-monospace, monospace; }
div.file { border: 1px solid var(--line); border-radius: 6px; overflow-x: auto; }
table.code { width: 100%; font: 13px/1.55 ui-monospace, monospace; }
table.code td { padding: 0 .8rem; vertical-align: top; }
th.n, td.n { color: var(--faint); text-align: right; width: 3rem; user-select: none; background: var(--card); }
th.t, td.t { white-space: pre; width: 1%; } th.s { color: var(--faint); font-weight: 500; text-align: left; padding: 0 .8rem; }
td.s { color: var(--faint); overflow-wrap: anywhere; }
tr.error > td { background: var(--error-row); } tr.warning > td { background: var(--warning-row); }
tr.note > td { background: var(--note-row); }
mark { background: none; color: inherit; text-decoration: underline wavy; text-underline-offset: 3px; }
mark.error { text-decoration-color: var(--error); } mark.warning { text-decoration-color: var(--warning); }
mark.note { text-decoration-color: var(--note); }
td.f { font: 14px/1.5 system-ui, sans-serif; padding-bottom: .5rem !important; }
td.f ul { margin: 0; padding-left: 1.2rem; color: var(--faint); font-size: 13px; }
b.error { color: var(--error); } b.warning { color: var(--warning); } b.note { color: var(--note); }
.safe { color: var(--safe); } .may { color: var(--warning); } .bad { color: var(--error); }
footer { color: var(--faint); font-size: .85rem; margin-top: 2.5rem; }
"""
_T = TypeVar("_T")
WORST = (Level.ERROR, Level.WARNING, Level.NOTE)


class HtmlReport:
    """One page of all files."""

    def __init__(self) -> None:
        self._files: list[CheckedFile] = []
        self._totals = Totals()

    def file(self, checked: CheckedFile) -> str:
        """Keeps a file."""
        self._files.append(checked)
        self._totals.add(checked)
        return ""

    def end(self) -> str:
        """The page."""
        return "\n".join([*self._head(), *self._index(), *self._sections(), *_foot()]) + "\n"

    def _head(self) -> Iterator[str]:
        """The page up to the files."""
        yield '<!doctype html>\n<html lang="en">\n<head>\n<meta charset="utf-8">'
        yield '<meta name="viewport" content="width=device-width, initial-scale=1">'
        yield f"<title>{NAME}</title>\n<style>{STYLE}</style>\n</head>\n<body>"
        yield f'<h1>{NAME}</h1>\n<p class="sum">{escape(self._totals.summary())}</p>'

    def _index(self) -> Iterator[str]:
        """A line for each file."""
        yield '<table class="index">\n<tr><th>file</th><th>checks</th><th>safe</th><th>may fail</th>'
        yield "<th>always fail</th><th>never reached</th><th>not known</th><th></th></tr>"
        for number, it in enumerate(self._files):
            yield f'<tr><td><a href="#f{number}">{_text(it.name)}</a></td>{_counts(it)}</tr>'
        yield "</table>"

    def _sections(self) -> Iterator[str]:
        """The files."""
        for number, it in enumerate(self._files):
            yield f'<section id="f{number}">\n<h2>{_text(it.name)}</h2>'
            yield from [f'<p class="safe">{CANNOT_FAIL}</p>'] * it.cannot_fail
            yield '<div class="file">\n<table class="code">'
            known = "known before the statement" if it.states else ""
            yield f'<tr><th class="n"></th><th class="t"></th><th class="s">{known}</th></tr>'
            yield from _rows(it, number)
            yield "</table>\n</div>\n</section>"


def _foot() -> Iterator[str]:
    """The end of the page."""
    yield f"<footer>{NAME} {VERSION}. A check that is safe fails in no run; what is known at a place holds in every run"
    yield "that comes there.</footer>\n</body>\n</html>"


def _text(text: str) -> str:
    """Text of a file or its name, as text of the page."""
    return escape(shown(text).encode("utf-8", "surrogateescape").decode("utf-8", "replace"))


def _counts(checked: CheckedFile) -> str:
    """The cells of a file's counts."""
    if checked.status == 2:
        return '<td class="bad" colspan="7">could not be checked</td>'
    tally = checked.tally
    cells = [(tally.checks, ""), (tally.safe, "safe"), (tally.may, "may"), (tally.fails, "bad"), (tally.dead, "")]
    counts = "".join(f'<td class="{name if many else ""}">{many}</td>' for many, name in [*cells, (tally.unknown, "may")])
    return counts + f'<td class="safe">{CANNOT_FAIL if checked.cannot_fail else ""}</td>'


def _rows(checked: CheckedFile, file: int) -> Iterator[str]:
    """The lines of a file, each with what is known there and with its findings below."""
    source = checked.source
    findings = _by_line(source, [(it.span, it) for it in checked.findings])
    states = _by_line(source, [(it.span, it) for it in checked.states])
    last = len(source.starts) - (len(source.starts) > 1 and source.starts[-1] == len(source.data))
    for line in range(last):
        here = findings.get(line, [])
        known = "<br>".join(_known(source, states.get(line, [])))
        name = min((it.level for it in here), key=WORST.index).value if here else ""
        number = f'<td class="n"><a href="#f{file}-{line + 1}">{line + 1}</a></td>'
        text = f'<td class="t">{_marked(source, line, here)}</td><td class="s">{known}</td>'
        if not known:
            text = f'<td class="t" colspan="2">{_marked(source, line, here)}</td>'
        yield f'<tr id="f{file}-{line + 1}" class="{name}">{number}{text}</tr>'
        yield from (_finding(source, it) for it in here)


def _known(source: SourceText, states: list[StateLine]) -> Iterator[str]:
    """What is known on a line, of several statements each behind its text."""
    for it in states:
        words = _text(source.data[it.span.start : it.span.end].decode("utf-8", "replace"))
        label = f"<i>{words}</i> " if len(states) > 1 else ""
        yield from (f"{label}{_text(line)}" for line in it.lines)


def _by_line(source: SourceText, told: list[tuple[Span, _T]]) -> dict[int, list[_T]]:
    """What is told, by the line where it begins."""
    found: dict[int, list[_T]] = {}
    for span, it in told:
        found.setdefault(source.line_of(span.start), []).append(it)
    return found


def _marked(source: SourceText, line: int, findings: list[Finding]) -> str:
    """A line with its findings marked."""
    start, text = source.starts[line], source.line(line)
    parts, at = [], 0
    for it in sorted(findings, key=lambda it: it.span):
        first, last = max(it.span.start - start, at), min(it.span.end - start, len(text))
        if first < last:
            inside = _decoded(text, first, last)
            parts += [_decoded(text, at, first), f'<mark class="{it.level.value}">{inside}</mark>']
            at = last
    return "".join([*parts, _decoded(text, at, len(text))])


def _decoded(text: bytes, start: int, end: int) -> str:
    """A part of a line as text of the page; tabs stand as they do in the whole line."""
    front = shown(text[:start].decode("utf-8", "replace"))
    return _text(shown(text[:end].decode("utf-8", "replace"))[len(front) :])


def _finding(source: SourceText, finding: Finding) -> str:
    """A finding, below its line, which has beside it what is known there."""
    level = finding.level.value
    words = f'<b class="{level}">{level}:</b> {_text(finding.message)} [{escape(finding.rule)}]'
    more = "".join(f"<li>{_text(it)}</li>" for it in details(source, replace(finding, known=())))
    below = f"<ul>{more}</ul>" if more else ""
    return f'<tr class="{level}"><td class="n"></td><td class="f" colspan="2">{words}{below}</td></tr>'
