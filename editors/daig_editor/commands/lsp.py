"""The command `daig-lsp`: the language server, as an editor starts it."""
from __future__ import annotations

import asyncio
import gc
import os
import sys

from daig_editor.protocol.client import Client
from daig_editor.protocol.server import LanguageServer
from daig_editor.protocol.wire import standard_input
from daig_editor.server.ending import cancelled

# What still runs at the end is waited for at most so many seconds.
LONGEST_END = 5.0
# Trees of programs live long and hold no rings: looking for rings after each few objects costs more than it frees.
COLLECT_AFTER = (100_000, 20, 50)
HELP = """usage: daig-lsp [--stdio]

A language server for .imp programs: it speaks the Language Server Protocol on standard input and output, and is
started by an editor. editors/README.md of the repository says how, and what its settings are.
"""


async def _serve() -> int:
    """Serves the client at standard input and output. Whatever does not end then is left behind."""
    status = 1
    try:
        status = await LanguageServer(Client(sys.stdout.buffer)).run(await standard_input())
        return status
    finally:
        others = asyncio.all_tasks() - {asyncio.current_task()}
        if await cancelled(others, LONGEST_END):
            os._exit(status)


def main(words: list[str] | None = None) -> int:
    """Runs the language server; answers the exit status."""
    given = [it for it in (sys.argv[1:] if words is None else words) if it != "--stdio"]
    if given in (["--help"], ["-h"]):
        print(HELP, end="")
        return 0
    if given:
        sys.stderr.write(f"daig-lsp: {' '.join(given)}: no such words\n{HELP}")
        return 2
    if sys.stdin.isatty():
        sys.stderr.write(f"daig-lsp: standard input is a terminal, and no editor\n{HELP}")
        return 2
    gc.set_threshold(*COLLECT_AFTER)
    try:
        return asyncio.run(_serve())
    except (BrokenPipeError, KeyboardInterrupt):
        return 1
