"""The settings that a client hands over."""
from __future__ import annotations

import os
import shutil
from urllib.parse import unquote, urlsplit

from daig_editor.checking.configuration import Configurations
from daig_editor.language.records import replace
from daig_editor.server.choices import DOMAIN, DOMAINS, FAULTS, WIDENINGS, Faults, found_program
from daig_editor.server.process import Settings
from daig_editor.server.watching import Options

NAMES = ("daig", "faults", "domain", "widening", "delay", "budget", "memory", "patience", "runs", "compareEvery")
MOST_MEMORY = 2**20


class GivenSettings:
    """The settings that were read, and what is wrong with the ones that were given, for which the defaults stand.

    `lacks_program`: no program is there, as a complaint says.
    """

    def __init__(self, given: object) -> None:
        self.complaints: list[str] = []
        self.lacks_program = False
        if given is not None and not isinstance(given, dict):
            self.complaints.append("the settings are no object")
        self._given = given if isinstance(given, dict) else {}
        unknown = [it for it in self._given if it not in NAMES]
        self.complaints += [f"no such setting: {it} (there are {', '.join(NAMES)})" for it in unknown]
        settings = Settings(
            daig=self._program(),
            domain=self._word("domain", DOMAINS, DOMAIN),
            widening=self._word("widening", WIDENINGS, "thresholds"),
            delay=self._number("delay", 0, 100, 0),
            budget=self._number("budget", 1, 10_000, 100),
            memory=self._number("memory", 0, MOST_MEMORY, 2048),
            patience=self._number("patience", 1, 86_400, 120),
        )
        compare_every = self._number("compareEvery", 1, 1_000_000, 100)
        faults = Faults(self._word("faults", FAULTS, Faults.ALL.value))
        self.options = Options(settings, faults, compare_every, self._number("runs", 0, 1000, 32))

    def options_of(self, uri: str) -> Options:
        """The options of a file: by the client's settings, else by the nearest `daig.toml` above it; raises
        `BadConfiguration`."""
        parts = urlsplit(uri)
        if parts.scheme != "file" or not parts.path:
            return self.options
        found = Configurations().of(os.path.dirname(unquote(parts.path)))
        options, settings = self.options, self.options.settings
        if found.domain and "domain" not in self._given:
            settings = replace(settings, domain=found.domain)
        if found.budget and "budget" not in self._given:
            settings = replace(settings, budget=found.budget)
        faults = Faults(found.faults) if found.faults and "faults" not in self._given else options.faults
        return replace(options, settings=settings, faults=faults, select=found.select)

    @property
    def settings(self) -> Settings:
        """What servers are started with."""
        return self.options.settings

    def _program(self) -> str:
        """The program's path: as given, else as it is found."""
        given = self._given.get("daig")
        if given is not None:
            problem = _problem(given)
            if problem is None:
                return os.path.expanduser(str(given))
            self.complaints.append(f"daig: {problem}")
            if given and isinstance(given, str) and "\0" not in given and not _is_relative(given):
                self.lacks_program = True
                return given
        found = found_program()
        if found is None:
            self.lacks_program = True
            self.complaints.append("daig: there is no program `daig`; give its path by the setting `daig`")
        return found or "daig"

    def _word(self, name: str, words: tuple[str, ...], plain: str) -> str:
        """A setting that is one of several words."""
        given = self._given.get(name, plain)
        if isinstance(given, str) and given in words:
            return given
        self.complaints.append(f"{name}: one of {', '.join(words)} is wanted, {plain} is taken")
        return plain

    def _number(self, name: str, low: int, high: int, plain: int) -> int:
        """A setting that is a number. Editors whose numbers are all fractions may write 3.0."""
        given = self._given.get(name, plain)
        whole = type(given) is int or (isinstance(given, float) and given.is_integer())
        if whole and low <= given <= high:
            return int(given)
        self.complaints.append(f"{name}: a number from {low} to {high} is wanted, {plain} is taken")
        return plain


def read_options(given: object) -> GivenSettings:
    """Reads the settings that a client, or a command, hands over."""
    return GivenSettings(given)


def _problem(given: object) -> str | None:
    """What is wrong with a path of a program. A path from some folder is refused: a project could bring the program."""
    if not isinstance(given, str) or not given or "\0" in given:
        return "a path is wanted"
    if _is_relative(given):
        return f"a whole path, or a name that the shell finds, is wanted, and not {given}"
    if shutil.which(os.path.expanduser(given)):
        return None
    return f"there is no program {given}; give the path of one by the setting `daig`"


def _is_relative(given: str) -> bool:
    """Whether a path is one from the present folder."""
    path = os.path.expanduser(given)
    return os.sep in path and not os.path.isabs(path)
