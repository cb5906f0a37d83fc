"""The contracts of functions, as they stand in the code."""
from __future__ import annotations

import re
from typing import Iterable, Iterator

COMMENT = re.compile(r"(?m)//.*$")
BODY = re.compile(r"\n\s*\{(\}|\n)|^    [^\n]*;$", re.M)
PROMISE = re.compile(r"(?m)^\s+ensures\*?\s+(\w+)\s*\{")


def contracts(text: str, function: str) -> Iterator[str]:
    """The contracts of the functions of a name in a text: what stands between the name and the body."""
    text = COMMENT.sub("", text)
    for found in re.finditer(rf"\bfn {function}\b", text):
        rest = text[found.end() :]
        body = BODY.search(rest)
        yield rest[: body.start()] if body else rest


def clause_fault(text: str, function: str, clauses: Iterable[str]) -> str:
    """What a text of code lacks of a function that promises these clauses. A parameter's name is none."""
    promised = [set(PROMISE.findall(it)) for it in contracts(text, function)]
    if not promised:
        return f"there is no function {function}"
    lacking = min(([it for it in clauses if it not in names] for names in promised), key=len)
    return f"{function} has no clause {' '.join(lacking)}" if lacking else ""


def law_fault(text: str, function: str, is_law: bool) -> str:
    """What is wrong with how a function is marked: a law takes no arguments, and nothing else takes none."""
    takes_none = any(re.match(r"(?:<[^(]*>)?\(\)", it) for it in contracts(text, function))
    return "" if takes_none == is_law else f"{function} is {'no' if is_law else 'a'} law"
