"""What the tests of small files share: the file, places in it, and a client that has it open."""
from __future__ import annotations

import os
import signal
import stat
import subprocess
import tempfile
from pathlib import Path

from tests.client import Client, Json
from tests.program import program

URI = "file:///small.imp"
FAILING = "proc main() {\n  var i: int;\n  i = input;\n  assert i < 3;\n}\n"


def at(line: int, character: int) -> Json:
    """A place in the small file."""
    return {"textDocument": {"uri": URI}, "position": {"line": line, "character": character}}


def codes(told: list[Json]) -> list[object]:
    """The codes of diagnostics."""
    return [it.get("code") for it in told]


def whole() -> Json:
    """The small file, with a range that holds all of it."""
    where = {"start": {"line": 0, "character": 0}, "end": {"line": 100_000, "character": 0}}
    return {"textDocument": {"uri": URI}, "range": where}


def hover(client: Client, line: int, character: int) -> str:
    """The words of a hover, and nothing where there are none."""
    found = client.request("textDocument/hover", at(line, character))
    return str(found["contents"]["value"]) if found else ""


def opened(options: Json, text: str, capabilities: Json | None = None) -> tuple[Client, list[Json]]:
    """A client with the small file open, and its diagnostics."""
    client = Client({"daig": program(), **options}, capabilities)
    client.open(URI, text)
    return client, client.diagnostics(1)


def servers(client: Client) -> list[int]:
    """The processes of the servers that a language server runs."""
    words = ["ps", "-o", "pid=", "--ppid", str(client.process.pid)]
    return [int(it) for it in subprocess.run(words, capture_output=True, text=True, check=False).stdout.split()]


def kill_servers(client: Client) -> None:
    """Ends the servers of a language server."""
    for pid in servers(client):
        os.kill(pid, signal.SIGKILL)


def script(folder: str, text: str) -> str:
    """A program for the tests, by the text of a shell script."""
    handle, name = tempfile.mkstemp(dir=folder, suffix=".sh")
    os.close(handle)
    path = Path(name)
    path.write_text("#!/bin/sh\n" + text)
    path.chmod(path.stat().st_mode | stat.S_IXUSR)
    return str(path)
