"""Records beside the dataclasses that they stand for."""
from __future__ import annotations

import copy
import dataclasses
import pickle
from typing import Any

from daig_editor.language import records
from daig_editor.language.tokens import Fault
from daig_editor.language.tree import Span, Stmt, StmtKind
from daig_editor.server.serving import Settings


def both(**options: bool) -> list[Any]:
    """A class of three fields, as a record and as a dataclass."""

    def made(module: Any) -> Any:
        """The class by one module."""

        @module.dataclass(**options)
        class Point:
            x: int
            names: list[str] = module.field(default_factory=list)
            note: str = module.field(default="", compare=False)

            def twice(self) -> int:
                """Something that it does."""
                return 2 * self.x

        return Point

    return [made(records), made(dataclasses)]


def raised(call: Any, *words: Any, **named: Any) -> str:
    """The kind of error that a call raises."""
    try:
        call(*words, **named)
    except Exception as error:
        return type(error).__name__
    return ""


def test_as_dataclasses() -> None:
    """Beginning, defaults, equality and words are those of dataclasses, with and without slots."""
    for slots in (False, True):
        for it in both(slots=slots):
            one, other = it(3), it(x=3, note="n")
            assert one == other and one != it(4) and one != (3, [], ""), it
            assert one.names == [] and one.names is not other.names and one.twice() == 6, it
            assert repr(other).endswith("Point(x=3, names=[], note='n')"), repr(other)
            assert [raised(it), raised(it, 1, [], "", 2), raised(it, 1, y=2)] == ["TypeError"] * 3, it
            assert raised(hash, one) == "TypeError" and copy.copy(other).note == "n", it
            assert hasattr(one, "__dict__") is not slots, it


def test_frozen() -> None:
    """Frozen ones are keys; what is replaced leaves the other fields, and the record, as they are."""
    one = Settings("daig")
    assert len({one, Settings("daig"), Settings("daig", budget=3)}) == 2
    assert records.replace(one, budget=3) == Settings("daig", budget=3) and one.budget == 100
    assert pickle.loads(pickle.dumps(one)) == one
    found = Fault("Unexpected", Span(1, 2), ("x",))
    assert found == Fault("Unexpected", Span(1, 2)) and found.wanted == ("x",) and hash(found) is not None


def test_statements() -> None:
    """A statement has its own fields, and no others."""
    stmt = Stmt(StmtKind.SIMPLE, "skip;", Span(0, 5), Span(0, 5))
    assert pickle.loads(pickle.dumps(stmt)) == stmt
    assert raised(setattr, stmt, "unknown", 1) == "AttributeError"
