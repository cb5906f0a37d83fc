"""What a misspelt word could mean."""
from __future__ import annotations

from typing import Iterable


def meant(word: str, known: Iterable[str]) -> str:
    """The known word that is most like another one, as a question; nothing where none is like it."""
    from difflib import get_close_matches  # wanted only where something is wrong

    found = get_close_matches(word, list(known), 1)
    return f"; did you mean `{found[0]}`?" if found else ""
