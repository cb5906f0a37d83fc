"""The report as JUnit's XML, which most build servers show: a suite for each file, a case for each finding."""
from __future__ import annotations

from typing import Iterator
from xml.sax.saxutils import escape, quoteattr

from daig_editor.reports.finding import TROUBLE, CheckedFile, Finding, Level
from daig_editor.reports.json_lines import utf8_name
from daig_editor.reports.report import CANNOT_FAIL
from daig_editor.reports.shown import shown
from daig_editor.reports.text import details
from daig_editor.reports.tool import NAME


class JunitReport:
    """All suites, which are kept since their sums stand in front of them."""

    def __init__(self) -> None:
        self._suites: list[str] = []
        self._tests = self._failures = self._errors = 0

    def file(self, checked: CheckedFile) -> str:
        """Keeps the suite of a file."""
        errors = sum(it.status == TROUBLE for it in checked.findings)
        failures = sum(_is_failure(it) for it in checked.findings)
        tests = max(len(checked.findings), 1)
        sums = f'tests="{tests}" failures="{failures}" errors="{errors}"'
        cases = "".join(f"{it}\n" for it in _cases(checked))
        self._suites.append(f"  <testsuite name={_name(checked.name)} {sums}>\n{cases}  </testsuite>\n")
        self._tests, self._failures, self._errors = self._tests + tests, self._failures + failures, self._errors + errors
        return ""

    def end(self) -> str:
        """The whole log."""
        sums = f'tests="{self._tests}" failures="{self._failures}" errors="{self._errors}"'
        suites = "".join(self._suites)
        return f'<?xml version="1.0" encoding="UTF-8"?>\n<testsuites name="{NAME}" {sums}>\n{suites}</testsuites>\n'


def _is_failure(finding: Finding) -> bool:
    """Whether a finding is more than a note, and the file was checked."""
    return finding.status != TROUBLE and finding.level is not Level.NOTE


def _cases(checked: CheckedFile) -> Iterator[str]:
    """The cases of a file, or one that passes where nothing was found."""
    where = f"classname={_name(checked.name)}"
    if not checked.findings:
        yield f'    <testcase {where} name="{CANNOT_FAIL if checked.cannot_fail else "nothing was found"}"/>'
    for it in checked.findings:
        line = checked.source.line_of(it.span.start) + 1
        kind = "error" if it.status == TROUBLE else "failure" if _is_failure(it) else "system-out"
        more = "\n".join([it.message, *details(checked.source, it)])
        words = "" if kind == "system-out" else f" type={_name(it.rule)} message={_name(it.message)}"
        name = _name(f"line {line}: {it.rule}: {it.key.statement or it.message}")
        yield f'    <testcase {where} name={name} file={_name(checked.name)} line="{line}">'
        yield f"      <{kind}{words}>{_text(more)}</{kind}>\n    </testcase>"


def _name(text: str) -> str:
    """Text as an attribute."""
    return quoteattr(shown(utf8_name(text)))


def _text(text: str) -> str:
    """Text between tags."""
    return escape("\n".join(shown(utf8_name(it)) for it in text.split("\n")))
