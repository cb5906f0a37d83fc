"""Text as a terminal can show it: no control character of a file or of its name comes through."""
from __future__ import annotations

import re
import unicodedata

TAB = 8
# Control characters, line separators, and those that turn the direction of text; bytes of names that a terminal may take
# for control characters, as Python has them.
_HIDDEN = re.compile("[\x00-\x08\x0a-\x1f\x7f-\x9f\u2028\u2029\u202a-\u202e\u2066-\u2069\udc80-\udc9f]")
_BYTES = 0xDC00


def shown(text: str) -> str:
    """The text with its control characters spelled out, and its tabs as spaces."""
    parts = _HIDDEN.sub(_spelled, text).split("\t")
    line = parts[0]
    for part in parts[1:]:
        line += " " * (TAB - width(line) % TAB) + part
    return line


def _spelled(match: re.Match[str]) -> str:
    """A control character by its number."""
    code = ord(match.group())
    code -= _BYTES if code > _BYTES else 0
    return f"\\x{code:02x}" if code < 256 else f"\\u{code:04x}"


def plain_json(text: str) -> str:
    """JSON whose texts have the same characters, those spelled out that a terminal would obey."""
    return _HIDDEN.sub(lambda it: it.group() if it.group() == "\n" else f"\\u{ord(it.group()):04x}", text)


def width(text: str) -> int:
    """How many columns a terminal takes for a text without control characters."""
    return len(text) if text.isascii() else sum(map(_width_of, text))


def _width_of(char: str) -> int:
    """The columns of one character."""
    if unicodedata.combining(char) or unicodedata.category(char) in ("Mn", "Me", "Cf"):
        return 0
    return 2 if unicodedata.east_asian_width(char) in "WF" else 1


def plural(many: int, word: str) -> str:
    """So many of something."""
    return f"{many} {word}" if many == 1 else f"{many} {word}s"
