"""The report as JSON: an object for each finding, one a line."""
from __future__ import annotations

import json
import os

from daig_editor.reports.finding import CheckedFile, Finding
from daig_editor.reports.regions import byte_region, lines_of
from daig_editor.reports.shown import plain_json


class JsonReport:
    """A line for each finding."""

    def file(self, checked: CheckedFile) -> str:
        """The lines of a file."""
        lines = (json.dumps(_fields(checked, it), ensure_ascii=False) + "\n" for it in checked.findings)
        return plain_json("".join(lines))

    def end(self) -> str:
        """Nothing."""
        return ""


def _fields(checked: CheckedFile, finding: Finding) -> dict[str, object]:
    """A finding's fields. Lines and columns count from 1, columns in bytes; the end is one past the last byte."""
    region = byte_region(checked.source, finding.span)
    return {
        "file": utf8_name(checked.name),
        "line": region.line,
        "column": region.column,
        "endLine": region.end_line,
        "endColumn": region.end_column,
        "level": finding.level.value,
        "rule": finding.rule,
        "message": finding.message,
        "procedure": finding.key.procedure,
        "statement": finding.key.statement,
        "known": list(finding.known),
        "dependsOn": lines_of(checked.source, finding.causes),
        "related": [{"line": checked.source.line_of(span.start) + 1, "message": it} for span, it in finding.related],
        "notes": list(finding.notes),
        "values": list(finding.values),
        "path": [checked.source.line_of(span.start) + 1 for span, _ in finding.path],
        "inputs": None if finding.inputs is None else list(finding.inputs),
        "fingerprint": checked.fingerprint(finding),
    }


def utf8_name(name: str) -> str:
    """A file's name as text that is UTF-8, whatever bytes it has."""
    return os.fsencode(name).decode("utf-8", "replace")
