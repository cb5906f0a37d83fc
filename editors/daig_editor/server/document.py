"""An open file: its text, what its server says of it, and the work that follows each change.

Every change of the text is followed in turn, the newest one first: where it is a program, the server gets the edit
requests that lead to it, or, where none do, a new server is started on the text. Where it is no program the last good
one stays, and what is wrong is the text's refusal. Then the report is asked for, and when the text rests for a while,
what is known beyond it. Nothing that goes wrong on the way ends this work, and nothing leaves the text looking safe.
"""
from __future__ import annotations

import asyncio
import traceback

from daig_editor.language.checks import evaluated_at
from daig_editor.language.outline import Outline
from daig_editor.language.places import Shift, SourceText
from daig_editor.language.refusals import (
    Refusal,
    refusal_of_fault,
    refusal_of_reply,
    refusal_of_size,
)
from daig_editor.language.text import TextReader
from daig_editor.language.tokens import GREATEST_SOURCE, Fault
from daig_editor.language.tree import Placed, Program, Span
from daig_editor.server.asking import Asker, GivenUp, Outdated
from daig_editor.server.calls import CallChoice
from daig_editor.server.ending import cancelled
from daig_editor.server.findings import Report
from daig_editor.server.judging import Judge, causes_of, heaviest
from daig_editor.server.news import News
from daig_editor.server.process import DaigProcess, Gone, NotStarted, Refused, Reply
from daig_editor.server.session import Good, Session
from daig_editor.server.stages import Stages
from daig_editor.server.watching import Causes, Options, Trouble, Watcher

# A text rests when it has not changed for so many seconds.
REST = 0.25
# Work is told of when it takes longer than so many seconds.
TELL_AFTER = 1.0
MOST_LOSSES = 2
# The work on a closed file is waited for at most so many seconds.
LONGEST_END = 5.0


class Document:
    """An open file."""

    def __init__(self, uri: str, text: SourceText, version: int, options: Options, watcher: Watcher) -> None:
        self.uri = uri
        self.text = text
        self.version = version
        self.options = options
        self.watcher = watcher
        self.refusal: Refusal | None = None
        self.trouble: Trouble | None = None
        self.report: Report | None = None
        self.partial: Report | None = None
        self.running = False
        self.shown: Causes | None = None
        self.session = Session(options.settings, options.compare_every, watcher.log)
        self.calls = CallChoice(self.session, watcher.show)
        self._asker = Asker(self.session)
        self._news = News()
        self._judge = Judge(
            self.session, self._asker, self._news, self._test_worker, self._stage, self._tell_partly, watcher.show_once
        )
        self._reader = TextReader()
        self._outline: Outline | None = None
        self._unconfirmed: Fault | None = None
        self._stages = Stages(lambda: self.session.lost)
        self._working = -1
        self._given_up = -1
        self._losses = 0
        # The last report, while its statements have the numbers of the server's.
        self._numbered: Report | None = None
        self._place: Placed | None = None
        self._complained = ""
        self._drifted: Trouble | None = None
        self._watch: asyncio.Task[None] | None = None
        self._worker = asyncio.create_task(self._work())

    # ------------------------------------------------------------------------------------------------------------------
    # What the client does

    def change(self, text: SourceText, version: int) -> None:
        """The text is another now."""
        self.text, self.version = text, version
        self.shown = self._drifted = self.trouble = self.partial = None
        self._losses = 0
        self._news.change()
        self._begin_anew()

    def _begin_anew(self) -> None:
        """Lets the worker see that there is something else to work on."""
        self._stages.changes += 1
        self._stages.wake()

    @property
    def drifted(self) -> bool:
        """Whether the client has another text, which is not known."""
        return self._drifted is not None

    def drift(self, trouble: Trouble) -> None:
        """A change could not be read: the text is not known until it comes whole."""
        self._drifted = trouble
        self.refusal = self.report = None
        self._begin_anew()

    async def reload(self, options: Options) -> None:
        """Serves the present text anew by other options."""
        self.options = options
        self.session.settings, self.session.compare_every = options.settings, options.compare_every
        await self.session.drop()
        self.report = None
        self._losses = 0
        self._begin_anew()

    def give_up(self) -> None:
        """Ends the work on the present text, as the user wants."""
        if self._stages.judged != self._stages.changes:
            self._given_up = self._stages.changes
            self._stages.wake()

    async def followed(self) -> None:
        """Waits until the present text is followed; raises `Outdated` where a newer one comes first."""
        await self._stages.until("followed")

    async def judged(self) -> None:
        """Waits until the present text is judged; raises `Outdated` where a newer one comes first."""
        await self._stages.until("judged")

    async def close(self) -> None:
        """Ends the work and the server, whatever is being done."""
        self._stages.close()
        self._worker.cancel()
        if self._watch:
            self._watch.cancel()
        await self.session.drop()
        if await cancelled([self._worker], LONGEST_END):
            self.watcher.log(f"the work on {self.uri} does not end")
        await self.session.drop()  # one that was being started

    # ------------------------------------------------------------------------------------------------------------------
    # The work

    async def _work(self) -> None:
        """Follows change after change, judges between them, and explains when the text rests."""
        while not self._stages.closed:
            try:
                await self._turn()
            except Outdated:
                pass
            except GivenUp:
                self._fail(Trouble("the analysis was given up as you wished: nothing is known", by_wish=True))
            except Gone as gone:
                await self._lose(str(gone), f"daig serve ended: {gone}", gone.of_memory)
            except Exception as error:  # a mistake of this program must not end the work on the file
                self.watcher.log(traceback.format_exc())
                await self._lose(repr(error), f"a mistake of the language server: {error!r}", False)
            finally:
                self._tell_end()

    async def _turn(self) -> None:
        """The next piece of work."""
        changes = self._working = self._stages.changes
        if self.session.lost:
            raise Gone("it ended while nothing was asked")
        if self._stages.followed != changes:
            await self._follow(self.text)
            self._stages.reach("followed", changes)
        elif self._stages.judged != changes:
            await self._judge_text(changes)
        elif self._stages.explained != changes:
            if await self._stages.rests(changes, REST):
                await self._explain()
                self._stages.reach("explained", changes)
        else:
            await self._stages.work()

    def _test_worker(self) -> None:
        """Raises where the text that is worked on is no longer wanted."""
        if self._stages.closed or self._working != self._stages.changes:
            raise Outdated
        if self._given_up == self._stages.changes:
            raise GivenUp

    # ------------------------------------------------------------------------------------------------------------------
    # Following the text

    async def _follow(self, text: SourceText) -> None:
        """Leads the server to a text, by edits or anew."""
        self._unconfirmed = None
        if self._drifted:
            self._complain(self._drifted)
            return
        if len(text.data) > GREATEST_SOURCE:
            self._refuse(refusal_of_size())
            return
        try:
            program = self._reader.read(text.data)
        except Fault as fault:
            self._refuse(refusal_of_fault(text.data, fault))
            self._unconfirmed = fault
            return
        replaced = await self.session.edit(text, program)
        if replaced is None:
            await self._load(text, program)
        else:
            self.refusal = self.trouble = None
            self.calls.follow(replaced)
            self._news.follow(replaced)

    def _refuse(self, refusal: Refusal) -> None:
        """The text is no program."""
        self.refusal, self.trouble = refusal, None

    async def _load(self, text: SourceText, program: Program | None, fault: Fault | None = None) -> None:
        """Starts a server on a text; where the text is refused, the running one stays."""
        kept = self.calls.places()
        try:
            await self._loaded(text, program, fault is None)
        except Refused as refused:
            self._refuse(refusal_of_reply(text.data, program, fault, refused.reply))
            return
        except NotStarted as why:
            self._complain(Trouble(f"daig serve cannot be asked: {why}"))
            return
        self.refusal = self.trouble = None
        self._news.forget()
        self._numbered = None
        if program is None:
            self.watcher.log(f"the server takes a text that this editor cannot read: {fault}")
        self.calls.find(kept)

    async def _loaded(self, text: SourceText, program: Program | None, tell: bool) -> None:
        """A server that is started on a text; what takes long is told of, where that is wanted."""
        telling = asyncio.create_task(self._tell_late()) if tell else None
        try:
            await self.session.load(text, program)
        finally:
            if telling:
                telling.cancel()
        if self._watch:
            self._watch.cancel()
        if self.session.process:
            self._watch = asyncio.create_task(self._watch_end(self.session.process))

    async def _tell_late(self) -> None:
        """Tells of a start that takes long."""
        await asyncio.sleep(TELL_AFTER)
        self.running = True
        self.watcher.work(self, "starting daig serve", 0)
        self.watcher.publish(self)

    async def _watch_end(self, process: DaigProcess) -> None:
        """Sees the end of a server that nobody asks."""
        await process.wait()
        if self.session.process is process:
            self._stages.wake()

    # ------------------------------------------------------------------------------------------------------------------
    # What goes wrong

    def _complain(self, trouble: Trouble) -> None:
        """Nothing is known of the text; the user is told once."""
        if not trouble.by_wish and trouble.words != self._complained:
            self.watcher.show(trouble.words)
        self._complained = trouble.words
        self.trouble, self.report = trouble, None

    async def _lose(self, log: str, words: str, of_memory: bool) -> None:
        """Lets go of a server. The text is loaded anew at once, but where that was done for it before."""
        self.watcher.log(f"the server is given up: {log}")
        place = self._place or (heaviest(self.session.good.program) if self.session.good else None)
        await self.session.drop()
        self.report = None
        self._losses += 1
        if not of_memory and self._losses < MOST_LOSSES:
            self._stages.again()
            return
        if of_memory:
            limit = f"{self.options.settings.memory} MiB (the setting `memory`)"
            words = f"the analysis needs more memory than its {limit}: nothing is known"
        self._fail(Trouble(words, place.head if place and of_memory else Span(0, 0)))

    def _fail(self, trouble: Trouble) -> None:
        """The work on the present text ends with trouble."""
        self._complain(trouble)
        self._stages.followed = self._stages.explained = self._stages.changes
        self.running = False
        self.watcher.publish(self)
        self._stages.reach("judged", self._stages.changes)

    # ------------------------------------------------------------------------------------------------------------------
    # Asking the server

    async def _judge_text(self, changes: int) -> None:
        """Asks for the report, and publishes."""
        if self.refusal is None and self.trouble is None:
            self._place = None
            good = self.session.good
            telling = asyncio.create_task(self._tell_running())
            try:
                self.report = await self._judge.report(good, self.options, self._numbered) if good else None
                self._numbered = self.report
            finally:
                telling.cancel()
                self.partial = None
            self._complained = ""
            if good is None:
                self.trouble = Trouble("this editor cannot read the text, which the server takes: nothing is shown")
        self.running = False
        self.watcher.publish(self)
        self._stages.reach("judged", changes)

    async def _tell_running(self) -> None:
        """Publishes that the work runs, where it takes long: what is shown until then is of an older text."""
        await asyncio.sleep(TELL_AFTER)
        self.running = True
        self.watcher.publish(self)

    def _tell_partly(self, report: Report) -> None:
        """Publishes what is known before the end of the work."""
        self.partial = report
        self.running = True
        self.watcher.publish(self)

    def _stage(self, place: Placed | None, percent: int, cells: int) -> None:
        """Hears how far the work is."""
        self._place = place
        line = self.session.good.text.line_of(place.span.start) + 1 if place and self.session.good else 0
        where = f"up to line {line}, " if line else ""
        self.watcher.work(self, f"{where}{cells:,} cells", percent)

    def _tell_end(self) -> None:
        """A piece of work has ended."""
        if self._stages.judged == self._stages.changes or self._working != self._stages.changes:
            self.watcher.work(self, None, 100)

    async def _explain(self) -> None:
        """Asks what is known beyond the report, and whether the server refuses a text as the reader does."""
        if self.trouble:
            return
        if self._unconfirmed:
            await self._confirm(self._unconfirmed)
        elif self.report and self.refusal is None and self.session.good:
            good, options = self.session.good, self.options
            report = await self._judge.completed(good, self.report, options)
            explained = await self._judge.explained(good, report, options.runs)
            self._news.rest(explained.may_come)
            self._numbered = explained
            if explained != self.report:
                self.report = explained
                self.watcher.publish(self)

    async def _confirm(self, fault: Fault) -> None:
        """Hears what the server says of a text that the reader does not read; where they differ the server is right."""
        self._unconfirmed = None
        before = self.refusal, self.trouble
        await self._load(self.text, None, fault)
        if before != (self.refusal, self.trouble):
            self._stages.judged = -1

    async def state(self, at: str, string: list[int] | None = None) -> Reply:
        """The reply on a location, computed in small steps; raises `Outdated` as soon as the text changes."""
        changes = self._stages.changes

        def test() -> None:
            """Raises where the text has changed."""
            if self._stages.closed or self._stages.changes != changes:
                raise Outdated

        return await self._asker.state(at, string or [], test)

    async def causes(self, place: Placed) -> Causes | None:
        """What the state before a statement of the last good program hangs on."""
        changes, good, stmt = self._stages.changes, self.session.good, place.stmt
        if good is None:
            return None
        await self.state(evaluated_at(stmt))
        found = await causes_of(self.session.ask, good, stmt)
        if changes != self._stages.changes:
            raise Outdated
        return Causes(place, found)

    def over_text(self, reply: Reply) -> str:
        """What an Over says, in words."""
        return self._judge.over_text(reply)

    # ------------------------------------------------------------------------------------------------------------------
    # Places and names

    @property
    def outline(self) -> Outline:
        """The outline of the present text."""
        if self._outline is None or self._outline.text is not self.text.data:
            self._outline = Outline(self.text.data)
        return self._outline

    @property
    def good(self) -> Good | None:
        """The last text that was a program."""
        return self.session.good

    def shift(self) -> Shift | None:
        """From the last good text to the present one."""
        return Shift.between(self.good.text.data, self.text.data) if self.good else None

    def good_place(self, place: int) -> int | None:
        """Where a place of the present text is in the last good one."""
        shift = self.shift()
        return shift.reversed().forth(place) if shift else None
