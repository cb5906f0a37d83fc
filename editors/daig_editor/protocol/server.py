"""The language server: one client, its open files, and the messages between them."""
from __future__ import annotations

import asyncio
import traceback
from typing import Awaitable, Callable

from daig_editor import VERSION
from daig_editor.checking.configuration import BadConfiguration, forget_configurations
from daig_editor.checking.program import build_words
from daig_editor.language.places import SourceText
from daig_editor.protocol.actions import execute
from daig_editor.protocol.client import INFO_MESSAGE, Abilities, Client
from daig_editor.protocol.diagnostics import diagnostics
from daig_editor.protocol.fitting import fitted, fitted_diagnostics
from daig_editor.protocol.names import incoming_calls, outgoing_calls
from daig_editor.protocol.questions import QUESTIONS, capabilities
from daig_editor.protocol.settings import GivenSettings, read_options
from daig_editor.protocol.wire import (
    CONTENT_MODIFIED,
    INTERNAL_ERROR,
    INVALID_PARAMS,
    INVALID_REQUEST,
    METHOD_NOT_FOUND,
    NOT_INITIALIZED,
    PARSE_ERROR,
    REQUEST_CANCELLED,
    REQUEST_FAILED,
    Json,
    RpcError,
    Unread,
    member,
    read_message,
)
from daig_editor.protocol.workspace import folders_of, workspace_symbols
from daig_editor.server.asking import Outdated
from daig_editor.server.choices import found_program
from daig_editor.server.document import Document
from daig_editor.server.process import Gone
from daig_editor.server.watching import Options, Trouble

DRIFTED = "a change of this text could not be read: save the file, or close and open it again"
SECTION = "daig"
# What is built is asked for at most so many seconds.
LONGEST_BUILD_WORDS = 1.0


class LanguageServer:
    """One client, with its open files."""

    def __init__(self, client: Client) -> None:
        self._client = client
        self._settings: GivenSettings = read_options(None)
        self._initialized = False
        self._stopped = False
        self._said: set[str] = set()
        self._folders: list[str] = []
        self._documents: dict[str, Document] = {}
        self._tasks: dict[object, asyncio.Task[None]] = {}
        self._others: set[asyncio.Task[None]] = set()
        self._requests: dict[str, Callable[[Json], Awaitable[object]]] = {
            "initialize": self.initialize,
            "shutdown": self.shutdown,
            "workspace/executeCommand": self.execute_command,
            "workspace/symbol": self.workspace_symbols,
            "callHierarchy/incomingCalls": self.incoming_calls,
            "callHierarchy/outgoingCalls": self.outgoing_calls,
        }
        self._notices: dict[str, Callable[[Json], Awaitable[None]]] = {
            "textDocument/didOpen": self.did_open,
            "textDocument/didChange": self.did_change,
            "textDocument/didSave": self.did_save,
            "textDocument/didClose": self.did_close,
            "workspace/didChangeConfiguration": self.did_change_configuration,
            "window/workDoneProgress/cancel": self.cancel_work,
            "$/cancelRequest": self.cancel,
        }

    # ------------------------------------------------------------------------------------------------------------------
    # Messages

    async def run(self, reader: asyncio.StreamReader) -> int:
        """Serves the client until it says exit; answers the exit status. No file's work goes on after it."""
        try:
            while True:
                try:
                    message = await read_message(reader)
                except Unread as unread:
                    self._client.fail(None, RpcError(PARSE_ERROR, str(unread)))
                    continue
                if message is None or message.get("method") == "exit":
                    return 0 if self._stopped else 1
                await self._take(message)
        finally:
            await self._close_all()

    async def _take(self, message: Json) -> None:
        """Takes one message. Requests are answered beside each other; what the client tells goes in its order."""
        method, params, number = message.get("method"), message.get("params"), message.get("id")
        given = params if isinstance(params, dict) else {}
        if "id" in message and type(number) not in (int, str):
            self._client.fail(None, RpcError(INVALID_REQUEST, "an id is a number or a text"))
        elif not isinstance(method, str):
            if "result" in message or "error" in message:
                self._client.answered(message)
            else:
                self._client.fail(number, RpcError(INVALID_REQUEST, "no method"))
        elif "id" in message:
            await self._begin(number, method, given)
        elif method in self._notices and self._initialized and not self._stopped:
            await self._hear(method, given)

    async def _begin(self, number: object, method: str, params: Json) -> None:
        """Begins to answer a request."""
        if number in self._tasks:
            self._client.fail(number, RpcError(INVALID_REQUEST, "a request of this id is being answered"))
            return
        task = asyncio.create_task(self._answer(number, method, params))
        self._tasks[number] = task
        if method in ("initialize", "shutdown"):
            await task
        else:
            await asyncio.sleep(0)  # it reads its places in the present text

    async def _hear(self, method: str, params: Json) -> None:
        """Takes what the client tells; what cannot be read goes to the log, and makes no text look right."""
        try:
            await self._notices[method](params)
        except Exception as error:  # the client's words must not end the server
            self._client.log(f"{method} is not read: {error!r}")
            document = self._documents.get(str(member(params, "textDocument", "uri")))
            if document and method == "textDocument/didChange":
                document.drift(Trouble(DRIFTED))

    async def _answer(self, number: object, method: str, params: Json) -> None:
        """Answers one request."""
        try:
            self._client.send(id=number, result=await self._result(method, params))
        except RpcError as error:
            self._client.fail(number, error)
        except Outdated:
            self._client.fail(number, RpcError(CONTENT_MODIFIED, "the text has changed"))
        except Gone as gone:
            self._client.fail(number, RpcError(REQUEST_FAILED, f"daig serve ended: {gone}"))
        except asyncio.CancelledError:
            self._client.fail(number, RpcError(REQUEST_CANCELLED, "cancelled"))
        except (KeyError, TypeError, ValueError) as error:
            self._client.fail(number, RpcError(INVALID_PARAMS, repr(error)))
        except Exception as error:  # the client gets an answer to each request
            self._client.log(traceback.format_exc())
            self._client.fail(number, RpcError(INTERNAL_ERROR, repr(error)))
        finally:
            self._tasks.pop(number, None)

    async def _result(self, method: str, params: Json) -> object:
        """The result of a request."""
        if self._stopped:
            raise RpcError(INVALID_REQUEST, "shut down")
        if method not in self._requests and method not in QUESTIONS:
            raise RpcError(METHOD_NOT_FOUND, method)
        if method == "initialize" and self._initialized:
            raise RpcError(INVALID_REQUEST, "initialize came before")
        if method != "initialize" and not self._initialized:
            raise RpcError(NOT_INITIALIZED, "initialize comes first")
        if method in self._requests:
            return await self._requests[method](params)
        document, abilities = self._document(params), self._client.abilities
        return fitted(method, await QUESTIONS[method](document, params, abilities), document, abilities)

    async def cancel(self, params: Json) -> None:
        """Ends a request that is being answered."""
        number = params.get("id")
        task = self._tasks.get(number) if isinstance(number, (int, str)) else None
        if task:
            task.cancel()

    # ------------------------------------------------------------------------------------------------------------------
    # What documents tell

    def log(self, text: str) -> None:
        """Something for the client's log."""
        self._client.log(text)

    def show(self, text: str) -> None:
        """Something for the user, who was told before where no program is there."""
        if not self._settings.lacks_program:
            self._client.show(text)

    def show_once(self, text: str) -> None:
        """Something for the user, which is said once."""
        if text not in self._said:
            self._said.add(text)
            self._client.show(text)

    def work(self, document: Document, words: str | None, percent: int) -> None:
        """Long work on a document is so far."""
        self._client.work(document.uri, f"daig: {document.uri.rsplit('/', 1)[-1]}", words, percent)

    def publish(self, document: Document) -> None:
        """A document's diagnostics are new; so are the states that hints and lenses show."""
        abilities = self._client.abilities
        if not abilities.pulls:
            told = fitted_diagnostics(diagnostics(document), document, abilities)
            params: Json = {"uri": document.uri, "version": document.version, "diagnostics": told}
            if not abilities.versions:
                del params["version"]
            self._client.send(method="textDocument/publishDiagnostics", params=params)
        self._client.refresh("diagnostics", "inlayHint", "codeLens")

    # ------------------------------------------------------------------------------------------------------------------
    # Beginning, settings, end

    async def initialize(self, params: Json) -> Json:
        """Reads the settings and says what this server can do."""
        self._client.abilities = Abilities.of(params.get("capabilities"))
        self._read_settings(params.get("initializationOptions"))
        self._folders = folders_of(params)
        self._initialized = True
        about = {"name": "daig", "version": await self._version()}
        return {"capabilities": capabilities(self._client.abilities), "serverInfo": about}

    async def _version(self) -> str:
        """The version, and whether the program that is asked is proved, as far as that is soon known."""
        if self._settings.settings.daig != found_program():
            return f"{VERSION} (asks {self._settings.settings.daig})"
        asked = asyncio.create_task(asyncio.to_thread(build_words))
        done, _ = await asyncio.wait([asked], timeout=LONGEST_BUILD_WORDS)
        return f"{VERSION} {asked.result()}" if done else VERSION

    def _read_settings(self, given: object) -> None:
        """Takes settings, and shows what is wrong with them."""
        self._settings = read_options(given)
        for complaint in self._settings.complaints:
            self._client.show(complaint)

    async def did_change_configuration(self, params: Json) -> None:
        """The settings are others, which stand in the message or are asked for."""
        given = params.get("settings")
        if isinstance(given, dict):
            section = given.get(SECTION)
            await self._reconfigure(section if isinstance(section, dict) else given)
        elif self._client.abilities.configuration:
            task = asyncio.create_task(self._ask_configuration())
            self._others.add(task)
            task.add_done_callback(self._others.discard)

    async def _ask_configuration(self) -> None:
        """Asks the client for the settings."""
        answer = await self._client.ask("workspace/configuration", {"items": [{"section": SECTION}]})
        if isinstance(answer, list) and answer and isinstance(answer[0], dict):
            await self._reconfigure(answer[0])

    async def _reconfigure(self, given: Json) -> None:
        """Serves all files by new settings, where they are others."""
        self._read_settings({name: value for name, value in given.items() if value is not None})
        for document in list(self._documents.values()):
            await self._follow_options(document)

    async def _follow_options(self, document: Document) -> None:
        """Serves a file by its options, where they are others."""
        options = self._options_of(document.uri)
        if options != document.options:
            await document.reload(options)

    def _options_of(self, uri: str) -> Options:
        """The options of a file. Where its `daig.toml` is wrong that is shown, and the settings alone stand."""
        forget_configurations()
        try:
            return self._settings.options_of(uri)
        except BadConfiguration as why:
            self.show_once(str(why))
            return self._settings.options

    async def shutdown(self, _params: Json) -> None:
        """Ends the servers."""
        self._stopped = True
        await self._close_all()

    async def _close_all(self) -> None:
        """Closes all files."""
        documents, self._documents = self._documents, {}
        await asyncio.gather(*(it.close() for it in documents.values()))

    # ------------------------------------------------------------------------------------------------------------------
    # Documents

    async def did_open(self, params: Json) -> None:
        """A file is open."""
        given = _object(params, "textDocument")
        uri, words, version = given.get("uri"), given.get("text"), given.get("version")
        if not isinstance(uri, str) or not isinstance(words, str):
            raise ValueError("no file")
        text = SourceText.of(words.encode("utf-8", "replace"), self._client.abilities.utf8)
        old = self._documents.pop(uri, None)
        if old:
            await old.close()
        number = version if type(version) is int else 0
        self._documents[uri] = Document(uri, text, number, self._options_of(uri), self)

    async def did_change(self, params: Json) -> None:
        """A file has changed in some places, one after the other."""
        document, changes = self._document(params), params.get("contentChanges")
        version = member(params, "textDocument", "version")
        if not isinstance(changes, list) or not all(isinstance(it, dict) for it in changes):
            raise ValueError("no changes")
        if document.drifted and not any("range" not in it for it in changes):
            raise ValueError("changes of a text that is not known")
        self._set_text(document, document.text.changed(changes), version)

    async def did_save(self, params: Json) -> None:
        """A file is saved: its text is known again, and so are the options of its folder."""
        document, words = self._document(params), params.get("text")
        await self._follow_options(document)
        if isinstance(words, str):
            data = words.encode("utf-8", "replace")
            if data != document.text.data or document.drifted:
                text = SourceText.of(data, self._client.abilities.utf8)
                self._set_text(document, text, document.version)

    def _set_text(self, document: Document, text: SourceText, version: object) -> None:
        """The text of a document is another one."""
        document.change(text, version if type(version) is int else document.version)

    async def did_close(self, params: Json) -> None:
        """A file is closed."""
        document = self._documents.pop(str(member(params, "textDocument", "uri")), None)
        if document:
            await document.close()
            self._client.work(document.uri, "", None, 100)
            self._client.send(method="textDocument/publishDiagnostics", params={"uri": document.uri, "diagnostics": []})

    def _document(self, params: Json) -> Document:
        """The document that a message is about."""
        uri = str(_object(params, "textDocument").get("uri"))
        if uri not in self._documents:
            raise RpcError(INVALID_PARAMS, f"{uri} is not open")
        return self._documents[uri]

    async def cancel_work(self, params: Json) -> None:
        """The user wants long work to end."""
        document = self._documents.get(self._client.worked_on(params.get("token")) or "")
        if document:
            document.give_up()

    # ------------------------------------------------------------------------------------------------------------------
    # Requests that are about no one place

    async def execute_command(self, params: Json) -> object:
        """Does a command on an open file."""
        arguments = params.get("arguments")
        if not isinstance(arguments, list) or not arguments or str(arguments[0]) not in self._documents:
            raise RpcError(INVALID_PARAMS, "the first argument is an open file")
        document, command = self._documents[str(arguments[0])], params.get("command")
        await document.followed()
        result = await execute(document, command, arguments)
        if result is None:
            self.publish(document)
        return result

    async def workspace_symbols(self, params: Json) -> object:
        """The procedures of all files that a query means."""
        return workspace_symbols(self._documents.values(), self._folders, str(params.get("query", "")))

    async def incoming_calls(self, params: Json) -> object:
        """The callers of a procedure."""
        return incoming_calls(*self._item(params))

    async def outgoing_calls(self, params: Json) -> object:
        """The procedures that one calls."""
        return outgoing_calls(*self._item(params))

    def _item(self, params: Json) -> tuple[Document, str]:
        """The file and the procedure of an item of the call hierarchy."""
        item = _object(params, "item")
        return self._document({"textDocument": {"uri": item.get("uri")}}), str(item.get("name"))


def _object(params: Json, name: str) -> Json:
    """A member that is an object."""
    value = params.get(name)
    if not isinstance(value, dict):
        raise RpcError(INVALID_PARAMS, f"{name} is missing")
    return value
