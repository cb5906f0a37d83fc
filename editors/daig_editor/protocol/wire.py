"""The wire of the Language Server Protocol: messages over two streams, and the errors that answer requests."""
from __future__ import annotations

import asyncio
import json
import sys
from typing import BinaryIO

from daig_editor.language.records import dataclass

Json = dict[str, object]

PARSE_ERROR = -32700
INVALID_REQUEST = -32600
METHOD_NOT_FOUND = -32601
INVALID_PARAMS = -32602
INTERNAL_ERROR = -32603
NOT_INITIALIZED = -32002
REQUEST_CANCELLED = -32800
CONTENT_MODIFIED = -32801
SERVER_CANCELLED = -32802
REQUEST_FAILED = -32803

LONGEST_HEADER = 2**16
LONGEST_MESSAGE = 2**28
PART = 2**20


@dataclass(frozen=True)
class RpcError(Exception):
    """The error that a request is answered with."""

    code: int
    message: str
    data: object = None


class Unread(Exception):
    """A message that is none. What follows it can be read."""


async def read_message(reader: asyncio.StreamReader) -> Json | None:
    """The next message, and None at the end of the stream; raises `Unread`."""
    try:
        length = await _length(reader)
        if length is None:
            return None
        body = await _body(reader, length)
    except asyncio.IncompleteReadError:
        return None
    try:
        message = json.loads(body)
    except (ValueError, RecursionError) as error:
        raise Unread(f"a message is no JSON: {str(error)[:80]}") from None
    if not isinstance(message, dict):
        raise Unread("a message is no object")
    return message


async def _length(reader: asyncio.StreamReader) -> int | None:
    """The length that the next header says, and None at the end of the stream."""
    length: int | None = None
    seen = 0
    while True:
        try:
            line = await reader.readuntil(b"\n")
        except asyncio.LimitOverrunError as error:
            await reader.readexactly(max(1, error.consumed))
            raise Unread("a line of a header is too long") from None
        seen += 1
        name, _, value = line.strip().partition(b":")
        if name.lower() == b"content-length":
            length = _number(value)
        if not name:
            if length is not None:
                return length
            if seen > 1:
                raise Unread("a header has no length")
            seen = 0


def _number(value: bytes) -> int:
    """The number of a header."""
    digits = value.strip()
    if not digits.isdigit() or len(digits) > 12:
        raise Unread(f"a length is no number: {value[:20]!r}")
    return int(digits)


async def _body(reader: asyncio.StreamReader, length: int) -> bytes:
    """The next so many bytes. What is too long is stepped over, and not kept."""
    if length <= LONGEST_MESSAGE:
        return await reader.readexactly(length)
    while length:
        length -= len(await reader.readexactly(min(length, PART)))
    raise Unread(f"a message has more than {LONGEST_MESSAGE:,} bytes")


def write_message(out: BinaryIO, message: Json) -> None:
    """Writes one message. What is no text of Unicode is written as a question mark."""
    words = json.dumps({"jsonrpc": "2.0", **message}, ensure_ascii=False, separators=(",", ":"))
    body = words.encode("utf-8", "replace")
    out.write(b"Content-Length: %d\r\n\r\n" % len(body) + body)
    out.flush()


async def standard_input() -> asyncio.StreamReader:
    """Standard input as a stream."""
    reader = asyncio.StreamReader(limit=LONGEST_HEADER)
    protocol = asyncio.StreamReaderProtocol(reader)
    await asyncio.get_running_loop().connect_read_pipe(lambda: protocol, sys.stdin.buffer)
    return reader


def member(value: object, *names: str) -> object:
    """A member of a member of an object, and None where there is none."""
    for name in names:
        value = value.get(name) if isinstance(value, dict) else None
    return value
