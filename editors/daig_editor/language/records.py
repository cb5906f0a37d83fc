"""Classes of named fields: what is used here of `dataclasses`, without its load, which takes a fifth of a check of one file.

mypy takes them for dataclasses, and sees to it that nobody sets a field of a frozen one.
"""
from __future__ import annotations

from operator import attrgetter
from typing import TYPE_CHECKING, Any, Callable

if TYPE_CHECKING:
    from dataclasses import dataclass as dataclass
    from dataclasses import field as field
    from dataclasses import replace as replace
else:
    _MADE = "__record_fields__"

    class _Field:
        """A field with more than a default: a call that makes it, or no part in comparisons."""

        def __init__(self, default: Any, make: Callable[[], Any] | None, compare: bool) -> None:
            self.default, self.make, self.compare = default, make, compare

    def field(*, default: Any = None, default_factory: Callable[[], Any] | None = None, compare: bool = True) -> _Field:
        """A field with more than a default, which has one or a call that makes it."""
        return _Field(default, default_factory, compare)

    def replace(record: Any, **changes: Any) -> Any:
        """A record with other values in some fields."""
        names = getattr(type(record), _MADE)
        return type(record)(**{**{it: getattr(record, it) for it in names}, **changes})

    def dataclass(
        cls: type | None = None, *, frozen: bool = False, slots: bool = False, eq: bool = True
    ) -> type | Callable[[type], type]:
        """Gives a class the fields that its annotations name, and their equality."""

        def made(it: type) -> type:
            return _made(it, frozen, slots, eq)

        return made if cls is None else made(cls)

    def _made(cls: type, frozen: bool, slots: bool, eq: bool) -> type:
        """The class with its fields."""
        names = tuple(cls.__dict__.get("__annotations__", ()))
        given = {it: cls.__dict__[it] for it in names if it in cls.__dict__}
        for name, it in given.items():
            if isinstance(it, _Field) and it.make:
                delattr(cls, name)
            elif isinstance(it, _Field):
                setattr(cls, name, it.default)
        if slots:
            within = {name: it for name, it in cls.__dict__.items() if name not in (*names, "__dict__", "__weakref__")}
            cls = type(cls)(cls.__name__, cls.__bases__, {**within, "__slots__": names})
        setattr(cls, _MADE, names)
        cls.__init__ = _initializer(names, given)
        cls.__repr__ = _represented
        if eq:
            compared = [it for it in names if not isinstance(given.get(it), _Field) or given[it].compare]
            _compare(cls, attrgetter(*compared), frozen)
        return cls

    def _initializer(names: tuple[str, ...], given: dict[str, Any]) -> Callable[..., None]:
        """The function `__init__`, whose parameters are the fields."""
        words, lines, scope = ["self"], [], {}
        for name in names:
            it = given.get(name)
            make = it.make if isinstance(it, _Field) else None
            scope[f"_{name}"] = make or (it.default if isinstance(it, _Field) else it)
            words.append(f"{name}=_{name}" if name in given else name)
            lines.append(f" self.{name} = _{name}() if {name} is _{name} else {name}" if make else f" self.{name} = {name}")
        exec(f"def __init__({', '.join(words)}):\n" + "\n".join(lines), scope)
        return scope["__init__"]

    def _compare(cls: type, values: Callable[[Any], Any], frozen: bool) -> None:
        """Lets records of a class be equal where their fields are; frozen ones can be keys."""

        def equal(self: Any, other: object) -> bool:
            return values(self) == values(other) if type(self) is type(other) else NotImplemented

        def hashed(self: Any) -> int:
            return hash(values(self))

        cls.__eq__, cls.__hash__ = equal, hashed if frozen else None

    def _represented(self: Any) -> str:
        """The words of a record."""
        return f"{type(self).__name__}({', '.join(f'{it}={getattr(self, it)!r}' for it in getattr(type(self), _MADE))})"
