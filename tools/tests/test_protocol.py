"""The protocol's schema: altered lines are refused, and a schema that is wrong is found."""
from __future__ import annotations

import copy
import importlib
import json
import unittest
from functools import cache
from typing import Any, Iterator

import check_protocol
from check_protocol import REFUSAL, REPLIES, REQUESTS, Exchange, exchange_fault, value_of
from json_schema import Schema, is_met

KNOWN = check_protocol.schema()


@cache
def exchanges() -> list[Exchange]:
    return check_protocol.exchanges()


def shape(value: Any) -> Any:
    """What two lines of one kind have in common."""
    if isinstance(value, list):
        return [shape(it) for it in value[:1]]
    return {key: shape(it) for key, it in value.items()} if isinstance(value, dict) else type(value).__name__


@cache
def replies() -> dict[str, tuple[str, Any]]:
    """A reply of each shape to each request that is read, with the path of its part."""
    found: dict[str, tuple[str, Any]] = {}
    for it in exchanges():
        request, reply = value_of(it.request), value_of(it.reply)
        is_read = it.request and reply.get("refused") not in check_protocol.UNREAD
        path = f"{REPLIES}/$defs/{request['do']}" if is_read else REFUSAL
        found.setdefault(f"{path} {shape(reply)}", (path, reply))
    return found


def objects(value: Any) -> Iterator[dict[str, Any]]:
    """The objects in a value."""
    if isinstance(value, dict):
        yield value
    for it in value.values() if isinstance(value, dict) else value if isinstance(value, list) else ():
        yield from objects(it)


def altered(reply: Any) -> Iterator[tuple[str, Any]]:
    """A reply, and each object in it, without a member, with one more, and with each member of a wrong kind."""
    for number, found in enumerate(objects(reply)):
        changes: list[tuple[str, Any]] = [("more", 1)]
        for key, value in found.items():
            wrong = (None, True, 1.5, -1, [] if isinstance(value, str) else "~")
            changes += [(key, it) for it in (*wrong, ...)]
        for key, value in changes:
            other = copy.deepcopy(reply)
            changed = list(objects(other))[number]
            changed[key] = value
            if value is ...:
                del changed[key]
            yield f"{'without' if value is ... else 'with'} {key}", other


def test_altered_replies_are_refused() -> None:
    tried = 0
    for path, reply in replies().values():
        assert KNOWN.fault(path, reply) == "", reply
        for name, other in altered(reply):
            # That `reached` is absent is told apart by the request alone.
            if name != "without reached":
                assert KNOWN.fault(path, other), f"{path}: {name}: {json.dumps(other)}"
                assert KNOWN.fault(REPLIES, other) or name.startswith("without"), f"{name}: {json.dumps(other)}"
                tried += 1
    assert tried > 500, tried


def test_words_that_are_not_of_the_protocol_are_refused() -> None:
    for path, value in (
        ("state", {"state": "x=[1,2"}), ("state", {"state": "x=[1,2]  y=[1,2]"}), ("state", {"state": ""}),
        ("state", {"chain": [0], "over": 1}), ("state", {"chain": [1] * 9, "over": 1}),
        ("report", {"report": [{"check": "zero", "id": 1, "verdict": "may"}]}),
        ("report", {"report": [{"check": "null", "id": 1, "verdict": "fails"}]}),
        ("faults", {"faults": [{"fault": "bounds", "id": 1, "verdict": "may"}]}),
        ("run", {"run": "ended", "id": 1}), ("run", {"run": "inputs"}), ("run", {"run": "fault", "id": 1}),
        ("replace", {"next": 0}), ("replace", {"refused": 7}), ("replace", {"refused": 19}),
        ("replace", {"at": 0, "name": "NoMain", "proc": "main", "refused": 9}),
        ("replace", {"at": 0, "name": "Ints", "proc": "call", "refused": 9}), ("begin", {"ticket": 0}),
        ("cost", {"state": "none"}), ("step", {"next": 1}), ("report", {"faults": []}),
    ):
        assert KNOWN.fault(f"{REPLIES}/$defs/{path}", value), value


def test_requests_are_accepted_as_they_are_read() -> None:
    for line in (
        '{"do":"state","at":"after 4294967295"}', '{"do":"state","at":"head 0000000001","more":null}',
        '{"do":"insert","place":"else 4","text":""}', '{"do":"step","ticket":0,"n":0}',
        '{"do":"run","fuel":0,"inputs":[-9223372036854775808]}', '{"do":"begin","what":"report","at":7}',
        '{"do":"fly","do":"cost"}', '{"do":"state","at":"end \\n"}',
    ):
        assert KNOWN.fault(REQUESTS, value_of(line)) == "", line
    for line in (
        '{"do":"state","at":"after 4294967296"}', '{"do":"state","at":"after 1\\n"}', '{"do":"state","at":"then 1"}',
        '{"do":"state","at":"after 1","string":[1,2,3]}', '{"do":"state","at":"after 1","string":null}',
        '{"do":"insert","place":"before 4","text":""}', '{"do":"step","ticket":true,"n":0}',
        '{"do":"run","fuel":1.0}', '{"do":"run","fuel":NaN}', '{"do":"begin","what":"why"}', '{"do":"State"}', "[]",
    ):
        assert KNOWN.fault(REQUESTS, value_of(line)), line


def test_the_wrong_lines_of_a_session_are_found() -> None:
    for request, reply, told in (
        ('{"do":"cost"}', '{"cost":1,"kept":1}', ""),
        ('{"do":"fly"}', '{"refused":3}', ""),
        ("", '{"at":0,"name":"NoMain","proc":"f","refused":8}', ""),
        ('{"do":"cost"}', '{"refused":3}', "accepted, and not read"),
        ('{"do":"fly"}', '{"next":3}', "read, and not accepted"),
        ('{"do":"cost"}', '{"next":3}', "has no cost"),
        ('{"do":"cost"}', '{"done":3}', "no reply"),
        ('{"do":"cost"}', "[]", "is no object"),
        ("{", '{"at":0,"refused":1}', "no reply"),
        ('{"do":"run","fuel":1}', '{"reached":0,"run":"fuel"}', "do not stand together"),
        ('{"at":"end f","do":"run","fuel":1}', '{"run":"fuel"}', "do not stand together"),
    ):
        fault = exchange_fault(KNOWN, Exchange("", request, reply))
        assert told in fault and bool(fault) == bool(told), (request, reply, fault)


def test_kinds_fields_and_refusals_that_are_absent_are_found() -> None:
    few = [it for it in exchanges() if '"do":"cancel"' not in it.request and '"run":"inputs"' not in it.reply]
    absent = list(check_protocol.kinds_that_are_absent(KNOWN, few))
    assert [it.split(":")[0] for it in absent] == [
        "reply to run", f"request {REQUESTS}/$defs/cancel", "reply to cancel"
    ], absent
    wrong = Schema(copy.deepcopy(KNOWN.whole))
    requests = wrong.part(f"{REQUESTS}/$defs")
    del requests["undo"], requests["why"]["properties"]["string"], requests["begin"]["oneOf"][0]["properties"]["at"]
    wrong.part(REFUSAL)["oneOf"][0]["properties"]["refused"]["enum"].remove(12)
    assert sorted(check_protocol.fields_that_differ(wrong)) == ["begin of state", "begin of why", "undo", "why"]
    assert list(check_protocol.refusals_that_differ(wrong)) == ["12"]


def test_each_keyword_is_checked() -> None:
    cases: tuple[tuple[Any, list[Any], list[Any]], ...] = (
        ({"type": "integer"}, [1, -1], [1.0, True, "1", None]),
        ({"type": "object"}, [{}], [[], "", 0]),
        ({"const": 1}, [1], [True, 1.0, "1", 2]),
        ({"enum": ["a", 1]}, ["a", 1], ["b", True]),
        ({"minimum": 1, "maximum": 2}, [1, 2, "0", True], [0, 3, 0.5]),
        ({"maxItems": 1}, [[], [1], "ab"], [[1, 2]]),
        ({"pattern": "^a+$"}, ["aa", 1], ["", "ab", "a\n"]),
        ({"items": {"type": "string"}}, [[], ["a"], 1], [["a", 1]]),
        ({"properties": {"a": {"const": 1}}}, [{}, {"a": 1, "b": 2}, 1], [{"a": 2}]),
        ({"required": ["a"]}, [{"a": 0}, 1], [{}, {"b": 1}]),
        ({"properties": {"a": {}}, "additionalProperties": False}, [{}, {"a": 1}], [{"b": 1}]),
        ({"oneOf": [{"minimum": 1}, {"minimum": 2}]}, [1], [0, 2]),
        ({"anyOf": [{"minimum": 1}, {"minimum": 2}]}, [1, 2], [0]),
        ({"allOf": [{"minimum": 1}, {"minimum": 2}]}, [2], [0, 1]),
        ({"$ref": "#/$defs/a/0", "$defs": {"a": [{"const": 3}]}}, [3], [4]),
    )
    for schema, good, bad in cases:
        known = Schema({"$defs": {}, **schema})
        for value in good:
            assert known.fault("#", value) == "", (schema, value)
        for value in bad:
            assert known.fault("#", value), (schema, value)


class Unknown(unittest.TestCase):
    def test_an_unknown_keyword_is_an_error(self) -> None:
        with self.assertRaises(ValueError):
            is_met("format", "date", "")
        with self.assertRaises(ValueError):
            Schema({"additionalProperties": {}}).fault("#", {})


class Agreement(unittest.TestCase):
    def test_another_validator_agrees(self) -> None:
        try:
            validator = importlib.import_module("jsonschema").Draft202012Validator
        except ImportError:
            self.skipTest("python3-jsonschema is not there")
        validator.check_schema(KNOWN.whole)
        whole = validator({"$ref": "#/$defs/requests", "$defs": KNOWN.whole["$defs"]})
        for line in {it.request for it in exchanges()}:
            value = value_of(line)
            # The other one takes 1.0 for an integer.
            if "1.0" not in line:
                self.assertEqual(whole.is_valid(value), not KNOWN.fault(REQUESTS, value), line)
        for path, reply in replies().values():
            part = validator({"$ref": path, "$defs": KNOWN.whole["$defs"]})
            for name, other in [("itself", reply), *altered(reply)]:
                self.assertEqual(part.is_valid(other), not KNOWN.fault(path, other), f"{name}: {other}")
