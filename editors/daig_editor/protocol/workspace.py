"""The procedures of all files: of the open ones as they are, of others in the client's folders as they are on the disk."""
from __future__ import annotations

import os
import re
from pathlib import Path
from typing import Iterable, Iterator
from urllib.parse import unquote, urlsplit

from daig_editor.checking.sources import bytes_of
from daig_editor.language.places import SourceText
from daig_editor.language.tree import Span
from daig_editor.protocol.names import SYMBOL_FUNCTION
from daig_editor.protocol.wire import Json, member
from daig_editor.server.document import Document

# So many files are read, of so many folders, and so many symbols told.
MOST_FILES, MOST_FOLDERS, MOST_SYMBOLS = 2_000, 10_000, 1_000
HEAD = re.compile(rb"^[ \t]*proc[ \t]+([A-Za-z_][A-Za-z0-9_]*)", re.M)


def folders_of(params: Json) -> list[str]:
    """The folders that a client opens, as it says when it begins."""
    given = params.get("workspaceFolders")
    uris = [member(it, "uri") for it in given] if isinstance(given, list) else [params.get("rootUri")]
    return [path for path in map(path_of, uris) if path]


def path_of(uri: object) -> str | None:
    """The path of a file's address; None of another one."""
    parts = urlsplit(uri) if isinstance(uri, str) else None
    return unquote(parts.path) if parts and parts.scheme == "file" and parts.path else None


def workspace_symbols(documents: Iterable[Document], folders: list[str], query: str) -> list[Json]:
    """The procedures whose names have the letters of a query in their order."""
    letters = re.compile(".*".join(map(re.escape, query)), re.I | re.S)
    found: list[Json] = []
    for name, place in _procedures(list(documents), folders):
        if letters.search(name):
            found.append({"name": name, "kind": SYMBOL_FUNCTION, "location": place})
            if len(found) == MOST_SYMBOLS:
                break
    return found


def _procedures(documents: list[Document], folders: list[str]) -> Iterator[tuple[str, Json]]:
    """All procedures, each with its place."""
    for document in documents:
        for proc in document.outline.procs:
            if proc.name.name:
                yield proc.name.name, {"uri": document.uri, "range": document.text.range(proc.name.span)}
    open_paths = {path_of(it.uri) for it in documents}
    utf8 = any(it.text.utf8 for it in documents)
    for path in _files(folders):
        if path not in open_paths:
            yield from _in_file(path, utf8)


def _in_file(path: str, utf8: bool) -> Iterator[tuple[str, Json]]:
    """The procedures of a file that is not open."""
    try:
        data = bytes_of(path)
    except OSError:
        return
    heads = list(HEAD.finditer(data))
    text = SourceText.of(data if heads else b"", utf8)
    for it in heads:
        yield it[1].decode(), {"uri": Path(path).as_uri(), "range": text.range(Span(it.start(1), it.end(1)))}


def _files(folders: list[str]) -> Iterator[str]:
    """The files below folders, without the hidden ones."""
    files = seen = 0
    for top in folders:
        for at, below, names in os.walk(top):
            below[:] = sorted(it for it in below if not it.startswith("."))
            seen += 1
            for name in sorted(names):
                if name.endswith(".imp") and not name.startswith("."):
                    files += 1
                    yield os.path.join(at, name)
            if seen >= MOST_FOLDERS or files >= MOST_FILES:
                return
