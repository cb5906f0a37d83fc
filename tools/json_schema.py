"""Validates values by a JSON Schema of 2020-12, in the keywords that docs/protocol.schema.json uses.

An unknown keyword is an error, so none is passed over. A number with a fraction or an exponent is no integer here: the
standard takes 1.0 for one, and `daig serve` does not.
"""
from __future__ import annotations

import re
from typing import Any, Iterator

TYPES: dict[str, type] = {"object": dict, "array": list, "string": str, "integer": int}
# What says nothing of a value.
NOTES = {"$schema", "title", "description", "$defs"}


def is_same(left: Any, right: Any) -> bool:
    """Whether two values without parts are the same: true is not 1."""
    return type(left) is type(right) and bool(left == right)


def is_number(value: Any) -> bool:
    return isinstance(value, (int, float)) and not isinstance(value, bool)


class Schema:
    """A schema, and what its references lead to."""

    def __init__(self, whole: Any) -> None:
        self.whole = whole

    def part(self, path: str) -> Any:
        """The part that a reference names, as `#/$defs/name`."""
        found = self.whole
        for key in path.split("/")[1:]:
            found = found[int(key)] if isinstance(found, list) else found[key]
        return found

    def fault(self, path: str, value: Any) -> str:
        """What is wrong first in a value, where the part that a reference names refuses it."""
        return next(self._faults(self.part(path), value, "the value"), "")

    def kinds(self, path: str) -> Iterator[str]:
        """The parts of which an accepted value is one, by their paths: references and alternatives are followed."""
        part = self.part(path)
        if "$ref" in part:
            yield from self.kinds(part["$ref"])
            return
        keyword = next((it for it in ("oneOf", "anyOf") if it in part), "")
        if not keyword:
            yield path
        for number in range(len(part.get(keyword, ()))):
            yield from self.kinds(f"{path}/{keyword}/{number}")

    def _faults(self, schema: Any, value: Any, name: str) -> Iterator[str]:
        """What is wrong in a value of this name."""
        for keyword, wanted in schema.items():
            if keyword == "$ref":
                yield from self._faults(self.part(wanted), value, name)
            elif keyword in ("allOf", "anyOf", "oneOf"):
                yield from self._faults_of_some(keyword, wanted, value, name)
            elif keyword in ("properties", "required", "additionalProperties"):
                if isinstance(value, dict):
                    yield from self._faults_of_members(schema, keyword, value, name)
            elif keyword == "items":
                for number, item in enumerate(value if isinstance(value, list) else ()):
                    yield from self._faults(wanted, item, f"{name}[{number}]")
            elif keyword not in NOTES and not is_met(keyword, wanted, value):
                yield f"{name} is {value!r}, and {keyword} is {wanted!r}"

    def _faults_of_some(self, keyword: str, parts: list[Any], value: Any, name: str) -> Iterator[str]:
        found = [next(self._faults(it, value, name), "") for it in parts]
        many = found.count("")
        if not {"allOf": many == len(parts), "anyOf": many > 0, "oneOf": many == 1}[keyword]:
            yield f"{name} is {value!r}: {many} of {len(parts)} parts of {keyword} accept it; {next(filter(None, found), '')}"

    def _faults_of_members(self, schema: Any, keyword: str, value: dict[str, Any], name: str) -> Iterator[str]:
        known = schema.get("properties", {})
        if keyword == "required":
            yield from (f"{name} has no {it}" for it in schema[keyword] if it not in value)
        elif keyword == "properties":
            for key in known.keys() & value.keys():
                yield from self._faults(known[key], value[key], key)
        elif schema[keyword] is not False:
            raise ValueError(f"{keyword} other than false is not known")
        else:
            yield from (f"{name} has {it}" for it in value if it not in known)


def is_met(keyword: str, wanted: Any, value: Any) -> bool:
    """Whether a value meets a keyword that looks at no parts of it."""
    if keyword == "type":
        return isinstance(value, TYPES[wanted]) and not isinstance(value, bool)
    if keyword == "const":
        return is_same(value, wanted)
    if keyword == "enum":
        return any(is_same(value, it) for it in wanted)
    if keyword == "minimum":
        return not is_number(value) or bool(value >= wanted)
    if keyword == "maximum":
        return not is_number(value) or bool(value <= wanted)
    if keyword == "maxItems":
        return not isinstance(value, list) or len(value) <= wanted
    if keyword == "pattern":
        # Python's $ stands before a last line break too, that of JSON Schema does not.
        return not isinstance(value, str) or bool(re.search(wanted.replace("$", r"\Z"), value))
    raise ValueError(f"the keyword {keyword} is not known")
