"""The report as commands of a GitHub workflow, which shows each finding at its line."""
from __future__ import annotations

from daig_editor.reports.finding import WHOLE_FILE, CheckedFile, Finding, Level
from daig_editor.reports.folding import folded
from daig_editor.reports.json_lines import utf8_name
from daig_editor.reports.regions import byte_region
from daig_editor.reports.text import details
from daig_editor.reports.tool import NAME

COMMANDS = {Level.ERROR: "error", Level.WARNING: "warning", Level.NOTE: "notice"}


class GithubReport:
    """A command for each finding."""

    def file(self, checked: CheckedFile) -> str:
        """The commands of a file."""
        return "".join(f"{_command(checked, it)}\n" for it in folded(checked))

    def end(self) -> str:
        """Nothing."""
        return ""


def _command(checked: CheckedFile, finding: Finding) -> str:
    """A finding: its place as properties, its words and what is known as the message."""
    region = byte_region(checked.source, finding.span)
    places: dict[str, object] = {"file": utf8_name(checked.path.path if checked.path.project else checked.name)}
    places["line"] = region.line
    if finding.span != WHOLE_FILE:
        places.update(col=region.column, endLine=region.end_line)
        places.update({"endColumn": region.end_column} if region.end_line == region.line else {})
    places["title"] = f"{NAME}: {finding.rule}"
    told = ",".join(f"{name}={_property(str(it))}" for name, it in places.items())
    words = "\n".join([finding.message, *details(checked.source, finding)])
    return f"::{COMMANDS[finding.level]} {told}::{_message(words)}"


def _message(text: str) -> str:
    """Text as the message of a command."""
    return text.replace("%", "%25").replace("\r", "%0D").replace("\n", "%0A")


def _property(text: str) -> str:
    """Text as a property of a command."""
    return _message(text).replace(":", "%3A").replace(",", "%2C")
