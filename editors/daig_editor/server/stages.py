"""How far the work on a text is: followed, judged, explained; and who waits for it."""
from __future__ import annotations

import asyncio
from typing import Callable

from daig_editor.server.asking import Outdated
from daig_editor.server.ending import within


class Stages:
    """The number of the present text, and of the one that each stage of the work has reached.

    `lost` says whether the server ended of itself. Once they are closed, nobody waits any longer.
    """

    def __init__(self, lost: Callable[[], bool]) -> None:
        self.changes = 0
        self.followed = self.judged = self.explained = -1
        self.closed = False
        self._lost = lost
        self._news = asyncio.Event()

    def again(self) -> None:
        """All is to be done once more for the present text."""
        self.followed = self.judged = self.explained = -1

    def wake(self) -> None:
        """Lets those who wait look again."""
        news, self._news = self._news, asyncio.Event()
        news.set()

    def close(self) -> None:
        """Nothing more is reached."""
        self.closed = True
        self.wake()

    def reach(self, name: str, changes: int) -> None:
        """A stage is done for a text."""
        setattr(self, name, changes)
        self.wake()

    async def _wait(self, holds: Callable[[], bool]) -> None:
        """Waits until something holds, or for the end."""
        while not (self.closed or holds()):
            await self._news.wait()

    async def until(self, name: str) -> None:
        """Waits until a stage is done for the present text; raises `Outdated` where a newer one comes first."""
        changes = self.changes
        await self._wait(lambda: getattr(self, name) == changes or self.changes != changes)
        if self.closed or changes != self.changes:
            raise Outdated

    async def rests(self, changes: int, seconds: float) -> bool:
        """Waits a while; answers whether the text stayed and the server runs, up to the moment of the answer.

        A change may come between the end of the time and the moment at which the waiting task goes on.
        """

        def disturbed() -> bool:
            """Whether the text is another one or the server is lost."""
            return self.changes != changes or self._lost()

        await within(seconds, self._wait(disturbed))
        return not (self.closed or disturbed())

    async def work(self) -> None:
        """Waits until there is work: a newer text, or a lost server."""
        await self._wait(lambda: self.followed != self.changes or self._lost())
