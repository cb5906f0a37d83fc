"""The report as SARIF 2.1.0, the format that code hosts read."""
from __future__ import annotations

import json
import os
from pathlib import Path
from typing import Iterator
from urllib.parse import quote

from daig_editor import VERSION
from daig_editor.language.places import SourceText
from daig_editor.language.tree import Span
from daig_editor.reports.finding import TROUBLE, CheckedFile, Finding, Weight
from daig_editor.reports.project import ProjectPath
from daig_editor.reports.regions import utf16_region
from daig_editor.reports.shown import plain_json
from daig_editor.reports.tool import CANNOT_FAIL_PROPERTY, FAULTS_PROPERTY, NAME, PRINT, RULES, Rule
from daig_editor.server.choices import Faults

Json = dict[str, object]
SCHEMA = "https://json.schemastore.org/sarif-2.1.0.json"
# The fingerprint by which GitHub knows a result again; it takes no other.
LINE_PRINT = "primaryLocationLineHash"
BASE = "SRCROOT"
# Code hosts take so many places of a result; of these so many are linked in its message.
MOST_RELATED, MOST_LINKED = 100, 5
# What comes first of the findings, as a number from 0 to 100.
RANKS = {Weight.CERTAIN: 95.0, Weight.NEW: 75.0, Weight.PLAIN: 50.0, Weight.SLIGHT: 10.0}
DOCUMENTS = Path(__file__).resolve().parents[3] / "docs"


class SarifReport:
    """One run with a result for each finding."""

    def __init__(self) -> None:
        self._results: list[Json] = []
        self._files: list[CheckedFile] = []
        self._status = 0
        self._project = ""

    def file(self, checked: CheckedFile) -> str:
        """Keeps a file's results."""
        self._project = self._project or checked.path.project
        self._results += [_Result(checked, it, self._project).result() for it in checked.findings]
        self._files.append(checked)
        self._status = max(self._status, checked.status)
        return ""

    def end(self) -> str:
        """The whole log."""
        driver: Json = {"name": NAME, "version": VERSION, "semanticVersion": VERSION}
        driver |= {"informationUri": _document(""), "rules": [_rule(it) for it in RULES.values()]}
        run: Json = {
            "tool": {"driver": driver},
            "automationDetails": {"id": f"{NAME}/"},
            "columnKind": "utf16CodeUnits",
            "invocations": [{"executionSuccessful": self._status != TROUBLE}],
        }
        if self._project:
            run["originalUriBaseIds"] = {BASE: {"uri": _file_uri(self._project.rstrip("/")) + "/"}}
        run["artifacts"] = [self._artifact(it) for it in self._files if it.status != TROUBLE]
        run["results"] = self._results
        tells_all = all(it.tells_all for it in self._files if it.status != TROUBLE)
        run["properties"] = {FAULTS_PROPERTY: (Faults.ALL if tells_all else Faults.CHECKS).value}
        log = json.dumps({"$schema": SCHEMA, "version": "2.1.0", "runs": [run]}, indent=1, ensure_ascii=False)
        return plain_json(log) + "\n"

    def _artifact(self, checked: CheckedFile) -> Json:
        """A file that was checked, and whether no run of it ends with a fault."""
        location = _artifact(checked.path, self._project)
        return {"location": location, "properties": {CANNOT_FAIL_PROPERTY: checked.cannot_fail}}


def _rule(rule: Rule) -> Json:
    """A rule as the driver lists it."""
    text = " ".join(rule.text.split())
    return {
        "id": rule.name,
        "shortDescription": {"text": rule.short},
        "fullDescription": {"text": text},
        "help": {"text": f"{rule.short} {text}", "markdown": f"**{rule.short}** {text}"},
        "helpUri": _document("#findings"),
        "defaultConfiguration": {"level": rule.level},
        "properties": {
            "precision": rule.precision,
            "problem.severity": "recommendation" if rule.level == "note" else rule.level,
            "tags": ["correctness"],
        },
    }


def _document(anchor: str) -> str:
    """The page that tells of the findings."""
    return _file_uri(str(DOCUMENTS / "CHECK.md")) + anchor


def _file_uri(path: str) -> str:
    """A whole path as a URI."""
    return "file://" + quote(os.fsencode(path))


class _Result:
    """The result of a finding. Places below the project have relative paths."""

    def __init__(self, checked: CheckedFile, finding: Finding, project: str) -> None:
        self._checked = checked
        self._finding = finding
        self._project = project

    def result(self) -> Json:
        """All of it."""
        it, checked = self._finding, self._checked
        related = [*it.related, *((span, "it depends on this") for span in it.causes)][:MOST_RELATED]
        printed = checked.fingerprint(it)
        result: Json = {
            "ruleId": it.rule,
            "ruleIndex": list(RULES).index(it.rule),
            "level": it.level.value,
            "rank": RANKS[it.weight],
            "message": {"text": self._words(related)},
            "locations": [self._location(it.span)],
            "relatedLocations": [self._related(number, *place) for number, place in enumerate(related)],
            "partialFingerprints": {PRINT: printed, LINE_PRINT: f"{printed[:16]}:1"},
        }
        if it.path:
            flow = [{"location": self._step(*step)} for step in self._path()]
            result["codeFlows"] = [{"threadFlows": [{"locations": flow}]}]
        if checked.has_baseline:
            result["baselineState"] = "new"
        return result

    def _path(self) -> Iterator[tuple[Span, str]]:
        """The places of the run, each with what is set there, or how it ends."""
        *before, (last, _) = self._finding.path
        yield from ((span, words or "the run comes here") for span, words in before)
        yield last, f"the run ends here: {', '.join(self._finding.values) or 'there are no variables'}"

    def _step(self, span: Span, words: str) -> Json:
        """A place of the run, with what is said of it."""
        return {"message": {"text": words}, **self._location(span)}

    def _words(self, related: list[tuple[Span, str]]) -> str:
        """A finding's words with what is known there, and links to the first related places."""
        it = self._finding
        told = [it.message, *(f"known here: {state}" for state in it.known), *it.notes]
        links = [f"[line {self._line(span)}]({number})" for number, (span, _) in enumerate(related[:MOST_LINKED])]
        words = "; ".join(map(_plain, told))
        more = len(it.causes) + len(it.related)
        words += f"; see {', '.join(links)}" if links else ""
        return words + (f"; of {more} related places {MOST_RELATED} are told" if more > MOST_RELATED else "")

    def _line(self, span: Span) -> int:
        """The line where a span begins."""
        return self._checked.source.line_of(span.start) + 1

    def _location(self, span: Span) -> Json:
        """A place in the file."""
        artifact = _artifact(self._checked.path, self._project)
        return {"physicalLocation": {"artifactLocation": artifact, "region": _region(self._checked.source, span)}}

    def _related(self, number: int, span: Span, words: str) -> Json:
        """Another place, with what it is."""
        return {"id": number, **self._step(span, words)}


def _plain(text: str) -> str:
    """Text of a message that has no links."""
    return text.replace("\\", "\\\\").replace("[", "\\[").replace("]", "\\]") if "](" in text else text


def _artifact(path: ProjectPath, project: str) -> Json:
    """A file: by its path below the folder of the project, or by its whole path where it is in another one or in none."""
    if not path.project:
        return {"uri": _file_uri(path.path)}
    if path.project != project:
        return {"uri": _file_uri(os.path.join(path.project, path.path))}
    return {"uri": quote(os.fsencode(path.path)), "uriBaseId": BASE}


def _region(source: SourceText, span: Span) -> Json:
    """A span in lines and UTF-16 units."""
    region = utf16_region(source, span)
    return {
        "startLine": region.line,
        "startColumn": region.column,
        "endLine": region.end_line,
        "endColumn": region.end_column,
    }
