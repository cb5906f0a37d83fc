"""What is checked of a file, and what checks it: here, or on another machine."""
from __future__ import annotations

from typing import TYPE_CHECKING, Awaitable, Callable, NamedTuple

from daig_editor.checking.analysis import Wanted, analyse
from daig_editor.reports.finding import CheckedFile

if TYPE_CHECKING:
    from daig_editor.checking.revisions import OldText


class Text(NamedTuple):
    """A file's name and bytes, and its old text where it is compared with one."""

    name: str
    data: bytes
    old: OldText | None = None


Analyse = Callable[[Text, Wanted], Awaitable[CheckedFile]]


async def analysed(text: Text, wanted: Wanted) -> CheckedFile:
    """Checks a file here."""
    if text.old is None:
        return await analyse(text.name, text.data, wanted)
    from daig_editor.checking.comparison import analyse_against

    return await analyse_against(text.name, text.data, text.old, wanted)
