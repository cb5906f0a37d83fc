"""The findings of an earlier report, which do not count again."""
from __future__ import annotations

import json

from daig_editor.language.records import dataclass
from daig_editor.reports.tool import FAULTS_PROPERTY, PRINT
from daig_editor.server.choices import Faults


class BadBaseline(Exception):
    """Why a file is no report in SARIF."""


@dataclass(frozen=True)
class Baseline:
    """The fingerprints of a report's findings, and whether it tells of all faults."""

    known: frozenset[str]
    tells_all: bool


def read_baseline(path: str) -> Baseline:
    """Reads a report in SARIF; raises `BadBaseline`."""
    try:
        with open(path, "rb") as file:
            return _baseline(file.read())
    except OSError as error:
        raise BadBaseline(f"{path}: {error.strerror or error}") from None
    except BadBaseline as why:
        raise BadBaseline(f"{path}: {why}") from None


def _baseline(data: bytes) -> Baseline:
    """What a log has."""
    try:
        log = json.loads(data)
    except (ValueError, RecursionError):
        raise BadBaseline("it is no JSON") from None
    try:
        if log["version"] != "2.1.0":
            raise BadBaseline("it is no SARIF 2.1.0")
        results = [it for run in log["runs"] for it in run["results"]]
        told = [run.get("properties", {}).get(FAULTS_PROPERTY) for run in log["runs"]]
        known = frozenset(it["partialFingerprints"][PRINT] for it in results)
        return Baseline(known, bool(told) and all(it in (Faults.ALL.value, Faults.STRICT.value) for it in told))
    except (AttributeError, KeyError, TypeError):
        raise BadBaseline("it is no report of daig-check in SARIF") from None
