"""A server that follows a text: led from one program to the next by edit requests, or started anew."""
from __future__ import annotations

from typing import Callable

from daig_editor.language.edits import NoPlan, plan
from daig_editor.language.places import SourceText
from daig_editor.language.records import dataclass
from daig_editor.language.tree import Program, Stmt, listing_text, number_from_one, program_text
from daig_editor.server.process import DaigProcess, Gone, Reply, Settings


@dataclass(frozen=True)
class Good:
    """The last text that was a program, with its statements' numbers, and the server's next number."""

    text: SourceText
    program: Program
    next: int


@dataclass
class Counts:
    """What was done so far."""

    requests: int = 0
    starts: int = 0
    edits: int = 0
    undone: int = 0
    compared: int = 0


class Session:
    """The running server of a document, if there is one, and the last good program, which it has.

    `compare_every`: after so many followed texts the server's program is compared with the text.
    """

    def __init__(self, settings: Settings, compare_every: int, log: Callable[[str], None]) -> None:
        self.settings = settings
        self.compare_every = compare_every
        self.good: Good | None = None
        self.process: DaigProcess | None = None
        self.counts = Counts()
        self._log = log

    async def edit(self, text: SourceText, program: Program) -> dict[int, int] | None:
        """Leads the running server to a program by edits; None where it has to be loaded.

        Answers which statements another one took the place of, by their numbers. Raises `Gone`.
        """
        if self.good is None or self.process is None:
            return None
        try:
            found = plan(self.good.program, program, self.good.next)
        except NoPlan as why:
            self._log(f"no edit leads to this text: {why}")
            return None
        next_number = self.good.next
        for sent, request in enumerate(found.requests):
            reply = await self.process.ask(**request.fields)
            if reply.get("next") != request.next:
                self._log(f"an edit is refused: {reply} to {request.fields}")
                await self._take_back(sent, next_number)
                return None
            next_number = request.next
            self.counts.requests += 1
        found.commit()
        self.good = Good(text, program, found.next)
        self.counts.edits += 1
        if self.counts.edits % self.compare_every == 0 and not await self.same_program():
            raise Gone("its program is not the text's")
        return found.replaced

    async def _take_back(self, many: int, next_number: int) -> None:
        """Undoes the last edits of the server, whose numbers stay used."""
        assert self.good and self.process
        self.good = Good(self.good.text, self.good.program, next_number)
        for _ in range(many):
            self.counts.undone += 1
            if "next" not in await self.process.ask(do="undo"):
                raise Gone("an edit could not be undone")

    async def load(self, text: SourceText, program: Program | None) -> None:
        """Starts a server on a text; where that is refused or fails, the running one stays.

        Raises `Refused` or `NotStarted`. Without a program the server takes a text that the reader does not.
        """
        started = await self._started(text.data)
        old, self.process = self.process, started
        self.counts.starts += 1
        self.good = Good(text, program, number_from_one(program)) if program else None
        if old:
            self._log("the server is started anew on the present text")
            await old.stop()

    async def _started(self, data: bytes) -> DaigProcess:
        """A server that is started by the settings, which may become others while one starts."""
        while True:
            settings = self.settings
            process = await DaigProcess.start(settings, data)
            if settings == self.settings:
                return process
            await process.stop()

    async def drop(self) -> None:
        """Lets go of the server, which ended, or has another program, or shall have other settings."""
        process, self.process, self.good = self.process, None, None
        if process:
            await process.stop()

    @property
    def lost(self) -> bool:
        """Whether the server ended of itself."""
        return self.process is not None and not self.process.runs

    async def ask(self, **request: object) -> Reply:
        """The reply of the running server; raises `Gone`."""
        if self.process is None:
            raise Gone("there is none")
        return await self.process.ask(**request)

    async def same_program(self) -> bool:
        """Whether the server's program and its numbers are those of the last good text."""
        if self.good is None or self.process is None:
            return False
        self.counts.compared += 1
        listing = await self.process.ask(do="listing")
        program = await self.process.ask(do="program")
        same_text = program.get("program") == program_text(self.good.program)
        return same_text and listing.get("listing") == listing_text(self.good.program)

    async def told(self) -> dict[str, object]:
        """The program that the server has, as it prints it, and what was done so far."""
        reply = await self.process.ask(do="program") if self.process else {}
        return {"program": reply.get("program"), "counts": dict(vars(self.counts))}

    def line_of(self, number: int) -> int:
        """The line, from 1, of a statement of the last good program; 0 where it has none of that number."""
        found = self.good.program.find_all({number}) if self.good else {}
        return self.good.text.line_of(found[number].span.start) + 1 if self.good and found else 0

    def statements(self, numbers: list[int]) -> dict[int, Stmt]:
        """The statements of these numbers, as far as there are some."""
        found = self.good.program.find_all(set(numbers)) if self.good else {}
        return {number: it.stmt for number, it in found.items()}
