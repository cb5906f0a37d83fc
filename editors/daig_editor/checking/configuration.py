"""The file `daig.toml`: which files are checked where a folder is named, which rules are told, and how it is analysed.

The nearest one above a file counts for it; what the command line says goes before it.
"""
from __future__ import annotations

import importlib
import os
import sys
from functools import lru_cache
from typing import Callable

from daig_editor.checking.patterns import Patterns
from daig_editor.language.records import dataclass
from daig_editor.server.choices import DOMAINS, FAULTS
from daig_editor.reports.project import CONFIGURATION
from daig_editor.reports.suggestion import meant
from daig_editor.reports.tool import RULES

LONGEST = 65_536
MOST_BUDGET = 10_000
INCLUDE = ("*.imp",)


class BadConfiguration(Exception):
    """What is wrong with a `daig.toml`."""


@dataclass(frozen=True)
class Configuration:
    """What a `daig.toml` says; None stands for what it leaves open."""

    include: Patterns
    exclude: Patterns
    select: frozenset[str] | None = None
    faults: str | None = None
    domain: str | None = None
    budget: int | None = None

    @staticmethod
    def default(folder: str) -> Configuration:
        """What stands where there is no file."""
        return Configuration(Patterns(folder, INCLUDE), Patterns(folder, ()))


class Configurations:
    """The configuration of each folder. `isolated`: no file is read; `named`: this one is, for all."""

    def __init__(self, isolated: bool = False, named: str | None = None) -> None:
        self._isolated = isolated
        self._named = read_configuration(named) if named else None

    def of(self, folder: str) -> Configuration:
        """The configuration of the files of a folder; raises `BadConfiguration`."""
        if self._named or self._isolated:
            return self._named or Configuration.default(os.getcwd())
        return _nearest(os.path.abspath(folder))


def forget_configurations() -> None:
    """Lets files be read anew, which may be others now."""
    _nearest.cache_clear()


@lru_cache(maxsize=None)
def _nearest(folder: str) -> Configuration:
    """The configuration of a whole path of a folder."""
    path = os.path.join(folder, CONFIGURATION)
    if os.path.isfile(path):
        return read_configuration(path)
    above = os.path.dirname(folder)
    return _nearest(above) if above != folder else Configuration.default(folder)


def read_configuration(path: str) -> Configuration:
    """Reads a file; raises `BadConfiguration`."""
    try:
        with open(path, "rb") as file:
            data = file.read(LONGEST + 1)
        if len(data) > LONGEST:
            raise BadConfiguration(f"it has more than {LONGEST:,} bytes")
        return _configuration(os.path.dirname(os.path.abspath(path)), _tables(data.decode()))
    except OSError as error:
        raise BadConfiguration(f"{path}: {error.strerror or error}") from None
    except UnicodeDecodeError:
        raise BadConfiguration(f"{path}: it is not UTF-8") from None
    except BadConfiguration as why:
        raise BadConfiguration(f"{path}: {why}") from None


def _tables(text: str) -> dict[str, object]:
    """The tables of a text in TOML."""
    name = "tomllib" if sys.version_info >= (3, 11) else "tomli"
    try:
        toml = importlib.import_module(name)
    except ImportError:
        raise BadConfiguration("Python 3.11 or later, or its package tomli, is needed to read it") from None
    try:
        found: dict[str, object] = toml.loads(text)
        return found
    except (ValueError, RecursionError) as error:
        raise BadConfiguration(str(error)) from None


def _configuration(folder: str, tables: dict[str, object]) -> Configuration:
    """What some tables say."""
    found: dict[str, object] = {}
    for name, value in tables.items():
        if name not in _KEYS:
            raise BadConfiguration(f"there is no key `{name}`{meant(name, _KEYS)}")
        found[name] = _KEYS[name](name, value)
    plain = Configuration.default(folder)
    include, exclude = found.get("include"), found.get("exclude")
    select, faults = found.get("select"), found.get("faults")
    domain, budget = found.get("domain"), found.get("budget")
    return Configuration(
        Patterns(folder, tuple(include)) if isinstance(include, list) else plain.include,
        Patterns(folder, tuple(exclude)) if isinstance(exclude, list) else plain.exclude,
        frozenset(select) if isinstance(select, list) else None,
        faults if isinstance(faults, str) else None,
        domain if isinstance(domain, str) else None,
        budget if isinstance(budget, int) else None,
    )


def _words(name: str, value: object) -> list[str]:
    """A list of texts."""
    if not isinstance(value, list) or not all(isinstance(it, str) and it for it in value):
        raise BadConfiguration(f"{name}: a list of texts is wanted")
    return value


def _rules(name: str, value: object) -> list[str]:
    """A list of rules."""
    for word in _words(name, value):
        if word not in RULES:
            raise BadConfiguration(f"{name}: there is no rule `{word}`{meant(word, RULES)}")
    return _words(name, value)


def _one_of(words: tuple[str, ...]) -> Callable[[str, object], str]:
    """Reads one of some words."""

    def read(name: str, value: object) -> str:
        if isinstance(value, str) and value in words:
            return value
        raise BadConfiguration(f"{name}: one of {', '.join(words)} is wanted{meant(str(value), words)}")

    return read


def _budget(name: str, value: object) -> int:
    """A number of rounds."""
    if type(value) is int and 1 <= value <= MOST_BUDGET:
        return value
    raise BadConfiguration(f"{name}: a number from 1 to {MOST_BUDGET} is wanted")


_KEYS: dict[str, Callable[[str, object], object]] = {
    "include": _words,
    "exclude": _words,
    "select": _rules,
    "faults": _one_of(FAULTS),
    "domain": _one_of(DOMAINS),
    "budget": _budget,
}
