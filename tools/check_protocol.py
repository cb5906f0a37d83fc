#!/usr/bin/env python3
"""Checks docs/protocol.schema.json against what `daig serve` reads and writes: check_protocol.py.

The lines are those of the rows and examples of crates/examples/data, and of the sessions that the documents show. The
schema accepts a request exactly where the program reads it; it accepts each reply as one to its request; and each kind
of request and reply that it knows stands in some line. Its requests, their fields and its refusals are those of the
tables of docs/PROTOCOL.md.
"""
from __future__ import annotations

import json
import re
import sys
from typing import Any, Iterable, Iterator, NamedTuple

sys.dont_write_bytecode = True

import run_examples
import run_sessions
from check_documents import SPAN, prose, read
from json_schema import Schema
from tally import Tally

SCHEMA = "docs/protocol.schema.json"
REQUESTS, REPLIES, REFUSAL = "#/$defs/requests", "#/$defs/replies", "#/$defs/refusal"
# The refusals of lines that are no requests.
UNREAD = {1, 2, 3, 11, 15}
# What a session that does not begin writes.
USAGE = "usage: "


class Exchange(NamedTuple):
    """A line that is read, and the line that is written for it."""

    name: str
    request: str
    reply: str


def schema() -> Schema:
    return Schema(json.loads(read(SCHEMA)))


def no_constant(word: str) -> None:
    raise ValueError(f"{word} is no JSON")


def value_of(line: str) -> Any:
    """The value of a line of JSON in UTF-8; None where it is none."""
    try:
        line.encode("utf-8")
        return json.loads(line, parse_constant=no_constant)
    except ValueError:
        return None


# ---- the lines

def paired(name: str, script: str, written: str) -> Iterator[Exchange]:
    """The exchanges of a session, which begins."""
    requests, replies = script.removesuffix("\n").split("\n") if script else [], written.splitlines()
    if len(requests) != len(replies):
        raise SystemExit(f"check_protocol.py: {name} has {len(requests)} requests and {len(replies)} replies")
    yield from (Exchange(name, *it) for it in zip(requests, replies))


def of_rows() -> Iterator[Exchange]:
    """Those of the rows. Where the source is refused, or another command writes a line of the same form, it stands with
    no request, or with that of `serve`."""
    for file in run_examples.names():
        for number, row in enumerate(run_examples.rows(file), 1):
            name, command = f"{file}, row {number}", (row.words + [""])[1]
            lines = [it for it in row.wanted.splitlines() if not it.startswith(USAGE)]
            if row.status:
                yield from (Exchange(name, "", it) for it in lines)
            elif command == "serve":
                yield from paired(name, row.script, row.wanted)
            elif command in ("batch", "faults"):
                asked = {"batch": "report"}.get(command, command)
                yield from (Exchange(name, json.dumps({"do": asked}), it) for it in lines[-1:])


def of_examples() -> Iterator[Exchange]:
    for name, _ in run_examples.examples():
        script, wanted = (run_examples.read(f"{run_examples.DATA}/{name}.{it}") for it in ("jsonl", "expected"))
        yield from paired(f"example {name}", script, wanted)


def of_documents() -> Iterator[Exchange]:
    for document in run_sessions.all_documents():
        for begun, _, block in run_sessions.blocks(read(document)):
            for command in run_sessions.commands(begun, block):
                for found in filter(None, map(run_sessions.EXCHANGE.fullmatch, command.lines)):
                    yield Exchange(f"{document}:{command.number}", found[1], found[2])


def exchanges() -> list[Exchange]:
    return [*of_rows(), *of_examples(), *of_documents()]


# ---- the checks

def reply_fault(known: Schema, request: Any, reply: Any) -> str:
    """What is wrong in a reply to a request that is read."""
    fault = known.fault(f"{REPLIES}/$defs/{request['do']}", reply)
    if not fault and request["do"] == "run" and "refused" not in reply and ("at" in request) != ("reached" in reply):
        return "reached and at do not stand together"
    return fault


def exchange_fault(known: Schema, exchange: Exchange) -> str:
    """What the schema says wrongly of an exchange."""
    request, reply = value_of(exchange.request), value_of(exchange.reply)
    if not isinstance(reply, dict):
        return f"{exchange.reply} is no object"
    if known.fault(REPLIES, reply):
        return f"no reply: {exchange.reply}"
    refused = known.fault(REQUESTS, request)
    if not exchange.request or reply.get("refused") in UNREAD:
        accepted = "" if refused else f"accepted, and not read: {exchange.request}"
        return accepted or known.fault(REFUSAL, reply)
    return f"read, and not accepted: {refused}" if refused else reply_fault(known, request, reply)


def kinds_that_are_absent(known: Schema, all_exchanges: Iterable[Exchange]) -> Iterator[str]:
    """The kinds of requests, and of replies to each, that no exchange has."""
    values = [(value_of(it.request), value_of(it.reply)) for it in all_exchanges]
    read_ones = [it for it in values if not known.fault(REQUESTS, it[0])]
    refusals = set(known.kinds(REFUSAL))
    for verb in known.part(f"{REQUESTS}/$defs"):
        ours = [it for it in read_ones if it[0]["do"] == verb]
        for path in known.kinds(f"{REQUESTS}/$defs/{verb}"):
            if all(known.fault(path, request) for request, _ in ours):
                yield f"request {path}"
        for path in known.kinds(f"{REPLIES}/$defs/{verb}"):
            if path not in refusals and all(known.fault(path, reply) for _, reply in ours):
                yield f"reply to {verb}: {path}"
    yield from (f"reply {path}" for path in refusals if all(known.fault(path, reply) for _, reply in values))


def table(heading: str) -> Iterator[list[str]]:
    """The cells of each line of a table of the protocol, by its first cell."""
    lines = [line for _, line in prose("docs/PROTOCOL.md")]
    begin = next(i for i, line in enumerate(lines) if line.startswith(f"| {heading} |")) + 2
    for line in lines[begin:]:
        if not line.startswith("|"):
            return
        yield [it.strip() for it in line.strip("|").split("|")]


def fields_that_differ(known: Schema) -> Iterator[str]:
    """The requests whose fields are not those of the protocol's table."""
    told = {verb: {*SPAN.findall(row[1]), "do"} for row in table("`do`") for verb in SPAN.findall(row[0])}
    ours = known.part(f"{REQUESTS}/$defs")
    yield from told.keys() ^ ours.keys()
    for verb in told.keys() & ours.keys() - {"begin"}:
        if ours[verb]["properties"].keys() != told[verb]:
            yield verb
    for kind in ours["begin"]["oneOf"]:
        what = kind["properties"]["what"]
        for verb in what.get("enum", [what.get("const")]):
            if kind["properties"].keys() != told[verb] | told["begin"]:
                yield f"begin of {verb}"


def refusals_that_differ(known: Schema) -> Iterator[str]:
    """The refusals that stand in the schema or in the protocol alone."""
    told = {int(it) for row in table("Refused") for it in re.findall(r"\d+", row[0])}
    codes = [known.part(path)["properties"]["refused"] for path in known.kinds(REFUSAL)]
    ours = {code for it in codes for code in it.get("enum", [it.get("const")])}
    yield from (str(it) for it in sorted(told ^ ours))


def main() -> int:
    tally, known, lines = Tally(), schema(), exchanges()
    for it in lines:
        tally.note(f"{it.name}: {it.request}", exchange_fault(known, it))
    tally.note("each kind stands in some line", "\n    ".join(["", *kinds_that_are_absent(known, lines)]).rstrip())
    tally.note("the fields are those of the protocol", " ".join(sorted(fields_that_differ(known))))
    tally.note("the refusals are those of the protocol", " ".join(refusals_that_differ(known)))
    return tally.end()


if __name__ == "__main__":
    sys.exit(main())
