"""Keeps certificates of files: one that holds stays, any other is written anew and verified.

A certificate speaks of one domain, so a file has one for each part of a product. That of PATH.imp stands at
FOLDER/PATH.DOMAIN.cert. Further words before `cert` tell a PATH with another ending, and one from the root of all files, so
that no two files share one.
"""
from __future__ import annotations

import contextlib
import json
import os
import stat
import tempfile
from typing import Iterator

from daig_editor.checking.single_run import run_once
from daig_editor.language.records import dataclass
from daig_editor.language.text import TextReader
from daig_editor.language.tree import number_from_one
from daig_editor.reports.finding import TROUBLE, WHOLE_FILE, CheckedFile, Finding, Key, Level, trouble
from daig_editor.server.choices import CERTIFIED
from daig_editor.server.process import STATUS_WORDS, NotStarted, Settings

Json = dict[str, object]
UNREAD, TOO_LONG = 7, 9
WHY = {
    "missing": "it says nothing of the loop at line {}",
    "entry": "what comes to the loop at line {} is more than it says",
    "step": "what a round of the loop at line {} leaves is more than it says",
}


class Failed(Exception):
    """Why a certificate could not be verified or written."""


async def certify(checked: CheckedFile, folder: str, settings: Settings) -> None:
    """Keeps the certificates of a file that was checked."""
    if checked.status == TROUBLE:
        return
    for domain in settings.domain.split("+"):
        try:
            if domain not in CERTIFIED:
                raise Failed(f"there are those of {', '.join(CERTIFIED)}")
            with _temporary(checked.source.data) as source:
                await _Keeper(checked, source, domain, settings).keep(certificate_path(folder, checked.name, domain))
        except (Failed, NotStarted, OSError) as why:
            words = why.strerror if isinstance(why, OSError) and why.strerror else str(why)
            checked.findings.append(trouble(f"the {domain} certificate cannot be kept: {words}", domain))


def certificate_path(folder: str, name: str, domain: str) -> str:
    """Where a file's certificate stands: by its path from where the tool was started, or by its whole path where it is
    not below."""
    real = os.path.realpath(name)
    path, ending = os.path.relpath(real), "cert"
    if not path.endswith(".imp"):
        ending = f"whole.{ending}"
    if path.startswith(f"..{os.sep}"):
        path, ending = real.lstrip(os.sep), f"outside.{ending}"
    return os.path.join(folder, f"{path.removesuffix('.imp')}.{domain}.{ending}")


@contextlib.contextmanager
def _temporary(data: bytes) -> Iterator[str]:
    """A file of these bytes."""
    with tempfile.NamedTemporaryFile(suffix=".imp") as file:
        file.write(data)
        file.flush()
        yield file.name


@dataclass(frozen=True)
class _Keeper:
    """The certificate of a file by one domain; `source` is a file with the text that was checked."""

    checked: CheckedFile
    source: str
    domain: str
    settings: Settings

    async def keep(self, path: str) -> None:
        """Leaves the certificate where it holds, else writes another one."""
        before = await self._verified(path) if os.path.lexists(path) else None
        if before == "":
            self.checked.tally.certified += 1
            return
        os.makedirs(os.path.dirname(path) or ".", exist_ok=True)
        handle, new = tempfile.mkstemp(suffix=".cert", dir=os.path.dirname(path) or ".")
        try:
            with os.fdopen(handle, "wb") as file:
                refused = await self._written(file.fileno(), new)
            if refused:
                self._add(Level.WARNING, f"no {self.domain} certificate holds: {refused}")
                return
            os.chmod(new, 0o644)
            os.replace(new, path)
        finally:
            with contextlib.suppress(OSError):
                os.unlink(new)
        self.checked.tally.rewritten += 1
        if before:
            self._add(Level.NOTE, f"the {self.domain} certificate is written anew: {before}")

    async def _written(self, handle: int, path: str) -> str:
        """Writes a certificate and verifies it; answers why it does not hold, if it does not."""
        more = ["--widening", self.settings.widening, "--delay", str(self.settings.delay)]
        more += ["--budget", str(self.settings.budget)]
        status, _ = await run_once(self.settings, ["cert", "--domain", self.domain, *more, self.source], handle)
        if status != 0:
            raise Failed(_status_words("cert", status))
        over = _object(_first_line(path)).get("over")
        if isinstance(over, int):
            return f"the loop at line {self._line(over)} used up its budget"
        return await self._verified(path)

    async def _verified(self, path: str) -> str:
        """Why a certificate does not hold, and nothing where it does."""
        if not stat.S_ISREG(os.stat(path).st_mode):
            raise Failed(f"{path} is no file")
        status, line = await run_once(self.settings, ["verify", "--domain", self.domain, self.source, path])
        if status in (UNREAD, TOO_LONG):
            return "it cannot be read" if status == UNREAD else "it is too long"
        if status != 0:
            raise Failed(_status_words("verify", status))
        return self._why(_object(line))

    def _why(self, reply: Json) -> str:
        """Why a line of `verify` says no, and nothing where it says yes."""
        if reply == {"verify": "yes"}:
            return ""
        if reply.get("verify") != "no":
            raise Failed(f"{self.settings.daig} verify answers no such line")
        if "line" in reply:
            return f"its line {reply['line']} is bad"
        return WHY.get(str(reply.get("why")), "it does not do for the loop at line {}").format(
            self._line(reply.get("at"))
        )

    def _line(self, number: object) -> int:
        """The line of a statement, and 0 of none."""
        program = TextReader().read(self.checked.source.data)
        number_from_one(program)
        found = program.find_all({number}) if isinstance(number, int) else {}
        return next((self.checked.source.line_of(it.span.start) + 1 for it in found.values()), 0)

    def _add(self, level: Level, words: str) -> None:
        """Adds a finding on the certificate."""
        key = Key("", "", f"{self.domain} certificate")
        self.checked.findings.append(Finding("certificate", level, WHOLE_FILE, words, key))


def _status_words(command: str, status: int) -> str:
    """Why a run of the program ended so."""
    return f"daig {command}: {STATUS_WORDS.get(status, f'it ended with status {status}')}"


def _first_line(path: str) -> bytes:
    """The first line of a file, as far as it is short."""
    with open(path, "rb") as file:
        return file.readline(65_536)


def _object(line: bytes) -> Json:
    """The JSON object of a line; an empty one where there is none."""
    try:
        found = json.loads(line)
    except (ValueError, RecursionError):
        return {}
    return found if isinstance(found, dict) else {}
