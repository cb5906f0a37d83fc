"""The client: what it can do, what is sent to it, and what it is asked."""
from __future__ import annotations

import asyncio
import time
from typing import BinaryIO

from daig_editor.language.records import dataclass
from daig_editor.protocol.wire import Json, RpcError, member, write_message

SOURCE = "daig"
ERROR_MESSAGE, INFO_MESSAGE, LOG_MESSAGE = 1, 3, 4
REFRESHES = {
    "inlayHint": "workspace/inlayHint/refresh",
    "codeLens": "workspace/codeLens/refresh",
    "diagnostics": "workspace/diagnostic/refresh",
}
# Progress is told at most so often, in seconds.
PROGRESS_EVERY = 0.2


@dataclass(frozen=True)
class Abilities:
    """What a client says that it can do: of answers, whether it reads Markdown, symbols within others, edits in actions, and
    in diagnostics places beside them, tags and the version."""

    utf8: bool = False
    progress: bool = False
    snippets: bool = False
    configuration: bool = False
    pulls: bool = False
    refreshes: tuple[str, ...] = ()
    markdown: bool = False
    nested_symbols: bool = False
    edits_in_actions: bool = False
    related: bool = False
    tags: bool = False
    versions: bool = False

    @staticmethod
    def of(capabilities: object) -> Abilities:
        """Reads the client's capabilities, whatever they are."""
        encodings = member(capabilities, "general", "positionEncodings")
        refreshes = tuple(it for it in REFRESHES if member(capabilities, "workspace", it, "refreshSupport") is True)
        pulls = isinstance(member(capabilities, "textDocument", "diagnostic"), dict) and "diagnostics" in refreshes
        text = member(capabilities, "textDocument")
        snippets = member(text, "completion", "completionItem", "snippetSupport")
        hovers, told = member(text, "hover", "contentFormat"), member(text, "publishDiagnostics")
        return Abilities(
            utf8=isinstance(encodings, list) and "utf-8" in encodings,
            progress=member(capabilities, "window", "workDoneProgress") is True,
            snippets=snippets is True,
            configuration=member(capabilities, "workspace", "configuration") is True,
            pulls=pulls,
            refreshes=refreshes,
            markdown=isinstance(hovers, list) and "markdown" in hovers,
            nested_symbols=member(text, "documentSymbol", "hierarchicalDocumentSymbolSupport") is True,
            edits_in_actions=isinstance(member(text, "codeAction", "codeActionLiteralSupport"), dict),
            related=member(told, "relatedInformation") is True,
            tags=bool(member(told, "tagSupport")),
            versions=member(told, "versionSupport") is True,
        )


class Client:
    """The client at the other end of the wire."""

    def __init__(self, out: BinaryIO) -> None:
        self.abilities = Abilities()
        self._out = out
        self._next_id = 0
        self._asked: dict[object, asyncio.Future[object]] = {}
        self._work: dict[str, _Work] = {}

    def send(self, **message: object) -> None:
        """Sends a message."""
        write_message(self._out, message)

    def fail(self, request_id: object, error: RpcError) -> None:
        """Answers a request by an error."""
        told: Json = {"code": error.code, "message": error.message}
        self.send(id=request_id, error=told if error.data is None else {**told, "data": error.data})

    def log(self, text: str) -> None:
        """Something for the client's log."""
        self.send(method="window/logMessage", params={"type": LOG_MESSAGE, "message": f"{SOURCE}: {text}"})

    def show(self, text: str, kind: int = ERROR_MESSAGE) -> None:
        """Something for the user."""
        self.send(method="window/showMessage", params={"type": kind, "message": f"{SOURCE}: {text}"})

    # Requests to the client.

    def ask(self, method: str, params: object = None) -> asyncio.Future[object]:
        """Sends a request; its result comes later, and is None where the client has none."""
        self._next_id += 1
        number = f"daig-{self._next_id}"
        future: asyncio.Future[object] = asyncio.get_running_loop().create_future()
        self._asked[number] = future
        self.send(id=number, method=method, **({} if params is None else {"params": params}))
        return future

    def answered(self, message: Json) -> None:
        """Takes the client's answer to a request."""
        number = message.get("id")
        future = self._asked.pop(number, None) if isinstance(number, str) else None
        if future and not future.done():
            future.set_result(message.get("result"))

    def refresh(self, *names: str) -> None:
        """Asks the client to ask anew for what it shows, as far as it can."""
        for name in names:
            if name in self.abilities.refreshes:
                self.ask(REFRESHES[name])

    # Progress of long work, one at a time for each file.

    def work(self, uri: str, title: str, words: str | None, percent: int) -> None:
        """Long work on a file is so far; None where it has ended."""
        if not self.abilities.progress:
            return
        work = self._work.get(uri)
        if words is None:
            if work:
                self._tell_progress(self._work.pop(uri).token, {"kind": "end"})
            return
        if work is None:
            self._begin(uri, title, words)
        elif time.monotonic() - work.told > PROGRESS_EVERY:
            work.told = time.monotonic()
            self._tell_progress(work.token, {"kind": "report", "message": words, "percentage": percent})

    def _begin(self, uri: str, title: str, words: str) -> None:
        """Work begins."""
        self._next_id += 1
        token = f"daig-work-{self._next_id}"
        self._work[uri] = _Work(token, time.monotonic())
        self.ask("window/workDoneProgress/create", {"token": token})
        begin = {"kind": "begin", "title": title, "message": words, "percentage": 0, "cancellable": True}
        self._tell_progress(token, begin)

    def _tell_progress(self, token: str, value: Json) -> None:
        """Tells how far some work is."""
        self.send(method="$/progress", params={"token": token, "value": value})

    def worked_on(self, token: object) -> str | None:
        """The file whose work has a token."""
        return next((uri for uri, it in self._work.items() if it.token == token), None)


@dataclass
class _Work:
    """Work that the client shows: its token, and when something was last told of it."""

    token: str
    told: float
