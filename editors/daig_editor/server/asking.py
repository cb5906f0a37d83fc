"""Asks the server about states in small steps, so that a newer text never waits for an old question."""
from __future__ import annotations

import asyncio
import time
from typing import Callable

from daig_editor.server.process import Gone, Reply
from daig_editor.server.session import Session

# The first steps of a query should take so many seconds. The longer nobody asked for anything else, the longer a step
# may take, as each costs something of its own: this part of the time since the query began, and at most the last.
FIRST_STEP, PART_OF_TIME, LONGEST_STEP = 0.04, 0.5, 0.2
# Cells in a second, before any were measured; and by how much a step may be taken for faster than the one before.
FIRST_PACE, MOST_FASTER, MOST_CELLS = 12_500.0, 4.0, 1_000_000
MOST_TICKETS = 8


class Outdated(Exception):
    """The text has changed since a question was asked."""


class GivenUp(Exception):
    """The user wants the work on this text no longer."""


class TookLong(Exception):
    """A question was given up after the time that it was given. What was computed stays."""


class Asker:
    """Asks about the program that a session has. `test` raises where the question is no longer wanted."""

    def __init__(self, session: Session) -> None:
        self._session = session
        self._pace = FIRST_PACE
        self._tickets = asyncio.Semaphore(MOST_TICKETS)

    async def state(
        self,
        at: str,
        string: list[int],
        test: Callable[[], None],
        stepped: Callable[[int], None] | None = None,
        seconds: float | None = None,
    ) -> Reply:
        """The reply on a location. `stepped` hears of the cells that each step filled."""
        process = self._session.process
        if process is None:
            raise Outdated
        until = time.monotonic() + seconds if seconds is not None else None
        async with self._tickets:
            test()
            if self._session.process is not process:
                raise Outdated
            asked = await process.ask(do="ask", at=at, string=string)
            if "ticket" not in asked:
                return asked
            try:
                return await self._steps(asked["ticket"], test, stepped, until)
            except Gone:
                raise
            except BaseException:  # a cancellation too, which must not wait for a reply
                process.tell(do="cancel", ticket=asked["ticket"])
                raise

    async def _steps(
        self, ticket: object, test: Callable[[], None], stepped: Callable[[int], None] | None, until: float | None
    ) -> Reply:
        """Steps a ticket to its end, as many cells at a time as take a while that is no longer than it may be."""
        process = self._session.process
        if process is None:
            raise Gone("it was let go")
        began = now = time.monotonic()
        while True:
            test()
            seconds = min(max(FIRST_STEP, PART_OF_TIME * (now - began)), LONGEST_STEP)
            cells = max(1, min(int(self._pace * seconds), MOST_CELLS))
            stepped_at = now
            reply = await process.ask(do="step", ticket=ticket, n=cells)
            now = time.monotonic()
            if "pending" not in reply:
                return reply
            self._pace = min(cells / max(now - stepped_at, 1e-6), self._pace * MOST_FASTER)
            if stepped:
                stepped(int(str(reply["pending"])))
            if until and now > until:
                raise TookLong
