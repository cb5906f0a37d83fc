"""A small client of the language server, for the tests."""
from __future__ import annotations

import json
import os
import queue
import resource
import signal
import subprocess
import sys
import threading
from pathlib import Path
from typing import Any, Callable

SERVER = Path(__file__).resolve().parents[1] / "daig_lsp.py"
Json = dict[str, Any]
# What a client can take that is told nothing else: all shapes of answers.
ABLE: Json = {
    "hover": {"contentFormat": ["markdown", "plaintext"]},
    "documentSymbol": {"hierarchicalDocumentSymbolSupport": True},
    "codeAction": {"codeActionLiteralSupport": {"codeActionKind": {"valueSet": ["quickfix"]}}},
    "publishDiagnostics": {"relatedInformation": True, "versionSupport": True, "tagSupport": {"valueSet": [1]}},
}


def framed(message: Json) -> bytes:
    """A message as it goes over the wire."""
    body = json.dumps({"jsonrpc": "2.0", **message}).encode()
    return b"Content-Length: %d\r\n\r\n" % len(body) + body


def bound_files(size: int) -> None:
    """Lets no file grow beyond a size, as on a full disk."""
    signal.signal(signal.SIGXFSZ, signal.SIG_IGN)
    resource.setrlimit(resource.RLIMIT_FSIZE, (size, size))


class Client:
    """A running language server. Messages come in by a thread, and are taken in their order."""

    def __init__(
        self,
        options: Json,
        capabilities: Json | None = None,
        command: list[str] | None = None,
        environment: dict[str, str] | None = None,
        file_size: int | None = None,
        root: Path | None = None,
        able: Json | None = None,
    ) -> None:
        pipe = subprocess.PIPE
        self.process = subprocess.Popen(
            command or [sys.executable, str(SERVER)],
            stdin=pipe,
            stdout=pipe,
            cwd=SERVER.parent,
            env={**os.environ, **(environment or {})},
            preexec_fn=(lambda: bound_files(file_size)) if file_size is not None else None,
        )
        self.seen: list[Json] = []
        self.answers: dict[str, object] = {}
        self.messages: queue.Queue[Json | None] = queue.Queue()
        self.log: list[str] = []
        self.shown: list[str] = []
        self._id = 0
        threading.Thread(target=self._read, daemon=True).start()
        given: Any = {} if capabilities is None else capabilities
        if isinstance(given, dict) and isinstance(given.get("textDocument", {}), dict):
            given = {**given, "textDocument": {**(ABLE if able is None else able), **given.get("textDocument", {})}}
        # Of which version diagnostics without one are: of none, where the server could say it.
        self.unsaid = -1 if isinstance(given, dict) and "publishDiagnostics" in json.dumps(given) else 0
        params: Json = {"capabilities": given, "initializationOptions": options}
        answer = self.request("initialize", {**params, "rootUri": root.as_uri()} if root else params)
        self.about: Json = answer["serverInfo"]
        self.notify("initialized", {})

    def _read(self) -> None:
        """Puts what comes in into the queue."""
        assert self.process.stdout
        while True:
            length = 0
            while line := self.process.stdout.readline().strip():
                length = int(line.split(b":")[1])
            if not length:
                self.messages.put(None)
                return
            self.messages.put(json.loads(self.process.stdout.read(length)))

    def _write(self, message: Json) -> None:
        """Sends a message."""
        self.raw(framed(message))

    def raw(self, data: bytes) -> None:
        """Sends any bytes."""
        assert self.process.stdin
        self.process.stdin.write(data)
        self.process.stdin.flush()

    def notify(self, method: str, params: Json) -> None:
        """Tells the server something."""
        self._write({"method": method, "params": params})

    def ask(self, method: str, params: Json) -> int:
        """Sends a request; answers its number."""
        self._id += 1
        self._write({"id": self._id, "method": method, "params": params})
        return self._id

    def error(self, method: str, params: Json) -> Json:
        """The error that a request is answered with."""
        number = self.ask(method, params)
        message = self.wait(lambda it: it.get("id") == number and "method" not in it)
        return dict(message["error"])

    def request(self, method: str, params: Json) -> Any:
        """The result of a request."""
        number = self.ask(method, params)
        message = self.wait(lambda it: it.get("id") == number and "method" not in it)
        assert "error" not in message, f"{method}: {message}"
        return message.get("result")

    def wait(self, wanted: Callable[[Json], bool], seconds: float = 120) -> Json:
        """The next message that is wanted. Logs on the way are kept, and the server's requests get an answer."""
        while True:
            message = self.messages.get(timeout=seconds)
            assert message is not None, "the language server ended"
            self.seen.append(message)
            params = message.get("params")
            if message.get("method") == "window/logMessage" and isinstance(params, dict):
                self.log.append(str(params["message"]))
            elif message.get("method") == "window/showMessage" and isinstance(params, dict):
                self.shown.append(str(params["message"]))
            elif "method" in message and "id" in message:
                self._write({"id": message["id"], "result": self.answers.get(message["method"])})
            if wanted(message):
                return message

    def open(self, uri: str, text: str) -> None:
        """Opens a file as version 1."""
        document = {"uri": uri, "languageId": "imp", "version": 1, "text": text}
        self.notify("textDocument/didOpen", {"textDocument": document})

    def change(self, uri: str, version: int, changes: list[Json]) -> None:
        """Changes a file."""
        document = {"uri": uri, "version": version}
        self.notify("textDocument/didChange", {"textDocument": document, "contentChanges": changes})

    def diagnostics(self, version: int) -> list[Json]:
        """The first diagnostics of a version, when its text is judged."""
        return self.published(version, lambda told: all(it.get("code") != "running" for it in told))

    def published(self, version: int, wanted: Callable[[list[Json]], object]) -> list[Json]:
        """The first diagnostics of a version that are wanted."""

        def is_it(message: Json) -> bool:
            """Whether a message has them."""
            if message.get("method") != "textDocument/publishDiagnostics":
                return False
            params = message["params"]
            return bool(params.get("version", self.unsaid or version) == version and wanted(params["diagnostics"]))

        return list(self.wait(is_it)["params"]["diagnostics"])

    def last_published(self) -> list[Json]:
        """The last diagnostics that came."""
        found = [it for it in self.seen if it.get("method") == "textDocument/publishDiagnostics"]
        return list(found[-1]["params"]["diagnostics"])

    def worked(self) -> float:
        """How many seconds of a processor the language server took so far, without its servers."""
        return int(Path(f"/proc/{self.process.pid}/schedstat").read_text().split()[0]) / 1e9

    def command(self, name: str, *arguments: object) -> Any:
        """The result of a command."""
        return self.request("workspace/executeCommand", {"command": name, "arguments": list(arguments)})

    def close(self) -> None:
        """Ends the server as a client should; fails where it does not end well."""
        self.request("shutdown", {})
        self.notify("exit", {})
        assert self.process.wait(20) == 0
