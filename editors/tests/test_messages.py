"""Hostile messages and settings never end the language server, and never leave a text looking safe."""
from __future__ import annotations

import json
import subprocess
import sys
from random import Random

from daig_editor.protocol.questions import QUESTIONS
from daig_editor.protocol.settings import read_options
from daig_editor.server.choices import found_program
from tests.client import SERVER, Client, framed
from tests.program import program
from tests.small import FAILING, URI, codes, opened


# ---------------------------------------------------------------------------------------------------------------------
# Hostile messages


def still_serves(client: Client) -> None:
    """The language server answers, and ends as it should."""
    client.open(URI, FAILING)
    assert codes(client.diagnostics(1)) == ["assert"]
    client.close()


def test_wire() -> None:
    """What is no message is answered by an error, and what follows is read."""
    for data in (b"Content-Length: 1x\r\n\r\n", b"Content-Length: 9\r\n\r\nno object", b"Nothing: here\r\n\r\n",
                 b"Content-Length: 100000\r\n\r\n" + b"[" * 100_000, b"Content-Length: 2\r\n\r\n[]",
                 b"x" * 200_000 + b"\r\n\r\n", b"Content-Length: -5\r\n\r\n"):  # fmt: skip
        client = Client({"daig": program()})
        client.raw(data)
        message = client.wait(lambda it: it.get("id") is None and "error" in it)
        assert message["error"]["code"] == -32700, message
        still_serves(client)


def test_ids() -> None:
    """An id is a number or a text."""
    client = Client({"daig": program()})
    for number in ([1], {"a": 1}, None, True, 1.5):
        client.raw(framed({"id": number, "method": "textDocument/hover", "params": {}}))
        assert client.wait(lambda it: it.get("id") is None)["error"]["code"] == -32600
    client.notify("$/cancelRequest", {"id": [1]})
    client.notify("$/cancelRequest", {"id": {"a": 1}})
    client.raw(framed({"id": 77}))
    assert client.wait(lambda it: it.get("id") == 77)["error"]["code"] == -32600
    still_serves(client)


def test_capabilities() -> None:
    """Capabilities of a strange shape are none."""
    shapes: list[object] = [
        {"general": None, "workspace": None, "textDocument": [1], "window": "x"},
        {"general": {"positionEncodings": "utf-8"}, "workspace": {"inlayHint": 3}},
        [],
        7,
    ]
    for given in shapes:
        still_serves(Client({"daig": program()}, given))  # type: ignore[arg-type]


def test_second_initialize() -> None:
    """Only the first initialize succeeds."""
    client = Client({"daig": program()})
    assert client.error("initialize", {"capabilities": {}})["code"] == -32600
    still_serves(client)


def test_unread_change() -> None:
    """A change that cannot be read makes the text unknown, until it comes whole or is saved."""
    client, _ = opened({}, FAILING)
    where = {"start": {"line": 3, "character": -1}, "end": {"line": "x"}}
    version = 1
    unread: list[object] = [[{"range": where, "text": "x"}], "nothing", [{"range": 7, "text": ""}], [7], [{"text": 3}]]
    for changes in unread:
        version += 1
        document = {"uri": URI, "version": version}
        client.notify("textDocument/didChange", {"textDocument": document, "contentChanges": changes})
        told = client.published(1, lambda told: codes(told) == ["trouble"])
        assert "could not be read" in told[0]["message"] and told[0]["severity"] == 1
    client.notify("textDocument/didSave", {"textDocument": {"uri": URI}, "text": FAILING})
    assert codes(client.diagnostics(1)) == ["assert"]
    client.change(URI, 9, [{"text": FAILING.replace("assert i < 3;", "skip;")}])
    assert client.diagnostics(9) == []
    client.close()


def test_saved_text() -> None:
    """A saved text that is another one than the changes led to is taken."""
    client, _ = opened({}, FAILING)
    saved = FAILING.replace("assert i < 3;", "skip;")
    client.notify("textDocument/didSave", {"textDocument": {"uri": URI}, "text": saved})
    assert client.published(1, lambda told: not told) == []
    client.close()


STRANGE: list[object] = [None, 0, -1, 1e300, True, "", "x", [], {}, [[]], {"line": 2**70, "character": 0}, "\ud800"]


def strange(random: Random, depth: int = 2) -> object:
    """A value of any shape, with names that the protocol has."""
    if depth == 0 or random.random() < 0.3:
        return random.choice(STRANGE)
    names = ["textDocument", "uri", "position", "line", "character", "range", "start", "end", "item", "positions",
             "newName", "context", "arguments", "command", "name", "settings", "daig", "text", "contentChanges"]  # fmt: skip
    if random.random() < 0.2:
        return [strange(random, depth - 1) for _ in range(2)]
    return {name: strange(random, depth - 1) for name in random.sample(names, 4)}


def test_strange_requests() -> None:
    """Each request gets an answer, whatever stands in it, and none ends the language server."""
    random = Random(4)
    client, _ = opened({}, FAILING)
    methods = [*QUESTIONS, "workspace/executeCommand", "callHierarchy/incomingCalls", "callHierarchy/outgoingCalls"]
    for method in methods:
        for _ in range(4):
            params = strange(random)
            if isinstance(params, dict):
                params = {**params, "textDocument": {"uri": URI}}
            number = client.ask(method, params)  # type: ignore[arg-type]
            client.wait(lambda it, number=number: it.get("id") == number and "method" not in it)  # type: ignore[misc]
    for method in ("textDocument/didOpen", "textDocument/didSave", "textDocument/didClose", "$/cancelRequest",
                   "workspace/didChangeConfiguration", "window/workDoneProgress/cancel", "no/such"):  # fmt: skip
        for _ in range(4):
            client.notify(method, strange(random))  # type: ignore[arg-type]
    client.notify("textDocument/didOpen", {"textDocument": {"uri": URI, "text": "proc \ud800 main", "version": None}})
    client.notify("workspace/didChangeConfiguration", {"settings": {"daig": {"daig": program()}}})
    still_serves(client)


def ran(*words: str) -> subprocess.CompletedProcess[str]:
    """What Python does with some words."""
    return subprocess.run([sys.executable, *words], capture_output=True, text=True, timeout=60, check=False)


def test_words_of_the_command() -> None:
    """`--help` is answered, other words are refused, and Python's version is looked at."""
    asked = ran(str(SERVER), "--help")
    assert asked.returncode == 0 and "Language Server Protocol" in asked.stdout
    asked = ran(str(SERVER), "-x")
    assert asked.returncode == 2 and "no such words" in asked.stderr
    old = f"import sys; sys.version_info = (3, 9, 2); exec(compile(open({str(SERVER)!r}).read(), 'x', 'exec'))"
    asked = ran("-c", old)
    assert asked.returncode == 2 and "Python 3.10 or later is wanted, this is 3.9" in asked.stderr, asked


# ---------------------------------------------------------------------------------------------------------------------
# Settings


def test_numbers_of_settings() -> None:
    """Numbers that are none are told, and the defaults stand."""
    for word in ("1e999", "-1e999", "NaN", "1e30", "true", '"7"', "[]", "0.5"):
        given = read_options({"daig": "sh", "delay": json.loads(word), "memory": json.loads(word)})
        assert (given.settings.delay, given.settings.memory) == (0, 2048) and len(given.complaints) == 2, word
    client = Client({"daig": program(), "delay": float("inf")})
    still_serves(client)
    assert any("delay" in it for it in client.shown)


def test_program_of_settings() -> None:
    """A program is a whole path or a name that the shell finds; a project cannot bring it by a relative path."""
    for path in ("./daig", "tools/daig", "../daig", "a\0b", "", 7, ["daig"]):
        given = read_options({"daig": path})
        assert len(given.complaints) >= 1 and given.settings.daig in (found_program(), "daig"), given.complaints
    assert read_options({"daig": "sh"}).complaints == [] and read_options({"daig": "/bin/sh"}).complaints == []
    told = "daig: there is no program ~/no/such; give the path of one by the setting `daig`"
    assert read_options({"daig": "~/no/such"}).complaints == [told]
