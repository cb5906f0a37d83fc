"""What a document is served with, what it tells, and to whom."""
from __future__ import annotations

from typing import TYPE_CHECKING, Protocol

from daig_editor.language.records import dataclass
from daig_editor.language.tree import Placed, Span
from daig_editor.server.choices import Faults
from daig_editor.server.process import Settings

if TYPE_CHECKING:
    from daig_editor.server.document import Document


@dataclass(frozen=True)
class Options:
    """How documents are served: which faults are told, and of which rules, all where it is None; how often a server's
    program is compared with the text, and how many runs are tried."""

    settings: Settings
    faults: Faults = Faults.ALL
    compare_every: int = 100
    runs: int = 32
    select: frozenset[str] | None = None

    def tells(self, rule: str) -> bool:
        """Whether findings of a rule are told."""
        return self.select is None or rule in self.select


@dataclass(frozen=True)
class Trouble:
    """Why nothing is known of the present text, although it may be a program. `by_wish`: the user wanted no more."""

    words: str
    span: Span = Span(0, 0)
    by_wish: bool = False


@dataclass(frozen=True)
class Causes:
    """The statements that the state before a statement hangs on, which the user wants to see."""

    of: Placed
    causes: list[Placed]


class Watcher(Protocol):
    """Whoever is told of a document."""

    def publish(self, document: Document) -> None:
        """The document's diagnostics are new."""

    def work(self, document: Document, words: str | None, percent: int) -> None:
        """Long work is so far; None where it has ended."""

    def log(self, text: str) -> None:
        """Something to be found in the log."""

    def show(self, text: str) -> None:
        """Something that the user should see."""

    def show_once(self, text: str) -> None:
        """Something that the user should see, however many files it is of."""
