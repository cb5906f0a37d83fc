"""Checks a file: a server is started on it and asked for what may fail, what is known there, and what it depends on."""
from __future__ import annotations

from collections import Counter
from contextlib import asynccontextmanager, contextmanager
from typing import TYPE_CHECKING, AsyncIterator, Iterator, Mapping

from daig_editor.checking.asking import NEVER_REACHED, BadReply, Over, Served, ordinals
from daig_editor.checking.refused import read_program, refused, too_long
from daig_editor.checking.words import (
    CALLED_HERE,
    DEAD,
    FAILS_ALWAYS,
    over_notes,
    over_words,
    state_words,
    told_states,
    verdict_words,
)
from daig_editor.language.checks import SLIGHT, evaluated_at, fault_of
from daig_editor.language.places import SourceText
from daig_editor.language.relevance import Relevance
from daig_editor.language.records import dataclass, replace
from daig_editor.language.tokens import GREATEST_SOURCE
from daig_editor.language.tree import Program, Span, Stmt, StmtKind, number_from_one
from daig_editor.language.words import fault_words
from daig_editor.reports.finding import CheckedFile, Finding, Key, Level, StateLine, Tally, trouble
from daig_editor.reports.tool import RULES
from daig_editor.server.choices import Faults
from daig_editor.server.serving import Gone, NotStarted, Refused, Settings, Start
from daig_editor.server.trying import FUEL, Failure, failing_runs, input_lists
from daig_editor.server.verdicts import Verdict, told

if TYPE_CHECKING:
    from daig_editor.language.following import Followed

# What a finding depends on is asked for so many findings of a file: each may depend on all before it.
MOST_WHY = 200
# A run has so many steps at most where arrays are made again and again, each of which may take as long as a thousand.
FUEL_OF_ARRAYS = 2_000
# What is known in each call of a procedure is told for so many findings of a file, where there are at most so many calls.
MOST_BY_CALL, MOST_CALLS = 50, 8
# So many runs that fail are followed.
MOST_FOLLOWED = 20
# The verdict that each statement had by each rule, by its number now.
OldVerdicts = Mapping[tuple[int, str], str]


@dataclass(frozen=True)
class Wanted:
    """What is asked of each file. `dead`: checks that are never reached count too; `states`: all states are asked;
    `causes`: what a finding depends on is asked; `new`: of a change, what the old text has too does not count; `inputs`:
    those of a run that is tried before the others. `start` starts a server, of many beside each other where it is None."""

    settings: Settings
    faults: Faults = Faults.ALL
    dead: bool = False
    tries: int = 0
    inputs: tuple[int, ...] | None = None
    states: bool = False
    causes: bool = True
    new: bool = False
    start: Start | None = None


async def analyse(name: str, data: bytes, wanted: Wanted) -> CheckedFile:
    """Checks a file of these bytes."""
    checked = CheckedFile(name, SourceText.of(data, True))
    with told_in(checked):
        async with served(data, wanted.settings, wanted.start) as server:
            await add_findings(checked, server, wanted)
    return checked


@contextmanager
def told_in(checked: CheckedFile) -> Iterator[None]:
    """Why a file could not be checked becomes a finding of it."""
    try:
        yield
    except NoProgram as why:
        checked.findings += why.findings
    except (Gone, BadReply) as why:
        more = "; --memory gives it more" if isinstance(why, Gone) and why.of_memory else ""
        checked.findings.append(trouble(f"daig serve cannot be asked: {why}{more}"))


async def add_findings(checked: CheckedFile, server: Served, wanted: Wanted, old: OldVerdicts | None = None) -> None:
    """Asks a server for all that is told of a file; `old` are the verdicts of its statements before a change."""
    await _Analysis(checked, server, wanted, old).run()


# ---------------------------------------------------------------------------------------------------------------------
# Starting


class NoProgram(Exception):
    """A text of which no server runs; the findings say why."""

    def __init__(self, *findings: Finding) -> None:
        super().__init__(findings[0].message)
        self.findings = findings


@asynccontextmanager
async def served(data: bytes, settings: Settings, start: Start | None = None) -> AsyncIterator[Served]:
    """A server on a text, which is stopped at the end; raises `NoProgram`."""
    server = await _serve(data, settings, start or _starting())
    try:
        yield server
    finally:
        await server.server.stop()


def _starting() -> Start:
    """What starts a server of many, which is loaded where it is wanted."""
    from daig_editor.server.process import DaigProcess

    return DaigProcess.start


async def _serve(data: bytes, settings: Settings, start: Start) -> Served:
    """Starts a server on a text; raises `NoProgram`."""
    if len(data) > GREATEST_SOURCE:
        raise NoProgram(too_long())
    program, fault = read_program(data)
    try:
        server = await start(settings, data)
    except Refused as why:
        raise NoProgram(*refused(data, program, fault, why.reply)) from None
    except NotStarted as why:
        raise NoProgram(trouble(f"daig serve cannot be asked: {why}")) from None
    if program is None:
        await server.stop()
        raise NoProgram(trouble("daig serve takes a text that is not read here: another version of it answers"))
    number_from_one(program)
    return Served(server, program)


# ---------------------------------------------------------------------------------------------------------------------
# Asking


class _Analysis:
    """The questions on one file, and the findings that come of them."""

    def __init__(self, checked: CheckedFile, served: Served, wanted: Wanted, old: OldVerdicts | None) -> None:
        self._checked = checked
        self._old = old
        self._served = served
        self._wanted = wanted
        self._unknown: dict[Over, int] = {}
        self._fails: dict[tuple[int, str], tuple[int, ...]] = {}
        self._runs: dict[tuple[int, ...], Followed | None] = {}
        self._not_safe: Counter[int] = Counter()
        self._certain: set[int] = set()
        self._asked_why = 0
        self._relevance = Relevance(served.places)
        self._calls: dict[str, list[int]] = {}
        for number, place in served.places.items():
            if place.stmt.callee:
                self._calls.setdefault(place.stmt.callee, []).append(number)

    async def run(self) -> None:
        """Asks for all."""
        end = await self._served.state("end main")
        if isinstance(end, Over):
            self._unknown[end] = 0
        verdicts = await self._served.verdicts(self._wanted.faults)
        which = ordinals(self._served.program, ((it.number, it.rule) for it in verdicts))
        self._checked.tally = _tally(verdicts)
        self._not_safe.update(it.number for it in verdicts if it.verdict != "safe")
        self._certain.update(it.number for it in verdicts if it.verdict == "fails")
        others = await self._try_runs({(it.number, it.rule) for it in verdicts})
        for it in told(verdicts, self._fails):
            await self._add(it, which[it.number, it.rule])
        await self._add_others(others)
        self._add_overs()
        self._checked.sort()
        self._checked.is_older = self._served.is_older
        self._checked.tells_all = self._wanted.faults is not Faults.CHECKS and not self._served.is_older
        self._checked.cannot_fail = self._cannot_fail(verdicts, isinstance(end, Over) or bool(others))
        if self._wanted.states:
            await self._add_states()

    def _cannot_fail(self, verdicts: list[Verdict], is_open: bool) -> bool:
        """Whether no run ends with a fault: all are judged, in all procedures, and none may come."""
        if is_open or self._fails or not self._checked.tells_all:
            return False
        return all(it.verdict in ("safe", "dead") for it in verdicts) and _calls_all(self._served.program)

    async def _try_runs(self, judged: set[tuple[int, str]]) -> list[Failure]:
        """Tries runs; answers those that fail by a fault that is not judged."""
        given, text = self._wanted.inputs, self._checked.source.data
        lists = [list(given)] if given is not None else []
        lists += input_lists(text, self._wanted.tries) if self._wanted.tries else []
        fuel = FUEL_OF_ARRAYS if _makes_arrays_often(self._served.program) else FUEL
        failures = await failing_runs(self._served.server.ask, lists, lambda _number, _fault: True, fuel)
        if any(it.number not in self._served.places for it in failures):
            raise BadReply("its run ends at no statement")
        self._fails = {(it.number, it.rule): it.inputs for it in failures if (it.number, it.rule) in judged}
        return [it for it in failures if (it.number, it.rule) not in judged]

    async def _add_others(self, failures: list[Failure]) -> None:
        """Adds the findings of runs that fail by a fault that is not judged."""
        which = ordinals(self._served.program, sorted((it.number, it.fault) for it in failures))
        for it in failures:
            place = self._served.places[it.number]
            state = await self._served.state(evaluated_at(place.stmt))
            finding = Finding(
                it.fault if it.fault in RULES else "run",
                Level.ERROR,
                place.placed.head,
                fault_words(it.fault, "may", it.inputs),
                Key(place.proc.name, place.stmt.text, it.fault, which[it.number, it.fault]),
                told_states(state),
                inputs=it.inputs,
                number=it.number,
            )
            self._checked.findings.append(self._with_run(finding, it.fault))

    def _with_run(self, finding: Finding, fault: str) -> Finding:
        """A finding with the way and the values of its run, where this is followed to the same end."""
        if finding.inputs is None:
            return finding
        if finding.inputs not in self._runs and len(self._runs) < MOST_FOLLOWED:
            from daig_editor.language.following import followed  # wanted only where a run fails

            self._runs[finding.inputs] = followed(self._served.program, finding.inputs)
        run = self._runs.get(finding.inputs)
        if run is None or (run.number, run.fault) != (finding.number, fault):
            return finding
        places = self._served.places
        return replace(
            finding,
            values=run.values,
            path=tuple((places[it.number].placed.head, it.words) for it in run.steps),
            related=tuple((places[it].placed.head, CALLED_HERE) for it in run.calls),
        )

    async def _add(self, verdict: Verdict, ordinal: int) -> None:
        """Adds the finding of a fault that may come, that comes in a run, or that is never reached."""
        place = self._served.places[verdict.number]
        key = Key(place.proc.name, place.stmt.text, verdict.rule, ordinal)
        fails = (verdict.number, verdict.rule) in self._fails
        if verdict.verdict == "dead" and not fails:
            level = Level.WARNING if self._wanted.dead else Level.NOTE
            notes, number = self._old_notes(verdict), verdict.number
            dead = Finding(verdict.rule, level, place.placed.head, DEAD, key, notes=notes, number=number)
            self._checked.findings.append(dead)
            return
        known = await self._served.state(evaluated_at(place.stmt))
        if isinstance(known, Over) and not fails:
            self._unknown[known] = self._unknown.get(known, 0) + 1
            self._checked.tally.may -= 1
            self._checked.tally.unknown += 1
            return
        finding = await self._open(verdict, key, told_states(known))
        self._checked.findings.append(self._with_run(finding, fault_of(verdict.rule)))

    async def _open(self, verdict: Verdict, key: Key, known: tuple[str, ...]) -> Finding:
        """The finding of a fault that may come, or that comes in a run."""
        number = verdict.number
        place, inputs = self._served.places[number], self._fails.get((number, verdict.rule))
        is_certain = verdict.verdict == "fails"
        is_new = self._is_new(verdict)
        ends = is_certain or (number not in self._certain and not await self._goes_on(place.stmt))
        level = Level.ERROR if is_certain or inputs is not None else Level.WARNING
        is_slight = level is Level.WARNING and verdict.rule == SLIGHT and not ends
        if is_slight and not is_new and self._wanted.faults is not Faults.STRICT:
            level = Level.NOTE
        notes = [FAILS_ALWAYS] if ends and not (is_certain and inputs is None) else []
        causes: tuple[Span, ...] = ()
        if level is not Level.NOTE:
            causes = await self._causes(place.stmt)
            notes = [*await self._by_call(place.stmt), *notes]
        return Finding(
            verdict.rule,
            level,
            place.placed.head,
            fault_words(verdict.rule, verdict.verdict, inputs, self._not_safe[number] == 1),
            key,
            known,
            causes,
            notes=(*notes, *self._old_notes(verdict)),
            inputs=inputs,
            number=number,
            is_new=is_new,
            is_slight=is_slight,
        )

    async def _goes_on(self, stmt: Stmt) -> bool:
        """Whether a run may go on after a statement, where that is the next thing that it does."""
        return stmt.kind is not StmtKind.SIMPLE or bool(stmt.callee) or await self._served.goes_on(f"after {stmt.number}")

    async def _causes(self, stmt: Stmt) -> tuple[Span, ...]:
        """What is known at a statement depends on these places, for the first findings of a file."""
        self._asked_why += 1
        if not self._wanted.causes or self._asked_why > MOST_WHY:
            return ()
        numbers = set(await self._served.why(evaluated_at(stmt))) - {stmt.number}
        return tuple(self._served.places[it].placed.head for it in self._relevance.ordered(stmt.number, numbers))

    async def _by_call(self, stmt: Stmt) -> list[str]:
        """What is known at a statement in each call of its procedure, where that differs."""
        calls = self._calls.get(self._served.places[stmt.number].proc.name, [])
        if not 2 <= len(calls) <= MOST_CALLS or self._asked_why > MOST_BY_CALL or not self._wanted.causes:
            return []
        states = [await self._served.state(evaluated_at(stmt), it) for it in calls]
        if len({state_words(it) for it in states}) == 1:
            return []
        lines = [(self._line(call), state_words(state)) for call, state in zip(calls, states) if state != NEVER_REACHED]
        return [f"called from line {line}: {words}" for line, words in lines]

    def _is_new(self, verdict: Verdict) -> bool:
        """Whether a fault may come now, and could not before a change."""
        return self._old is not None and self._old.get((verdict.number, verdict.rule), "safe") in ("safe", "dead")

    def _old_notes(self, verdict: Verdict) -> tuple[str, ...]:
        """What the verdict was before a change, where it was something else."""
        if self._old is None:
            return ()
        old = self._old.get((verdict.number, verdict.rule))
        if old is None:
            return ("new with the change",)
        return () if old == verdict.verdict else (f"before the change: {verdict_words(verdict.rule, old)}",)

    def _add_overs(self) -> None:
        """Adds a finding for each loop that used up its budget, with how many checks are not known for it."""
        loops = sorted({it.loop for it in self._unknown})
        which = ordinals(self._served.program, ((it, "budget") for it in self._loops()))
        for loop in loops:
            place = self._served.places[loop]
            unknown = {it: many for it, many in self._unknown.items() if it.loop == loop}
            key = Key(place.proc.name, place.stmt.text, "budget", which[loop, "budget"])
            words, notes = over_words(self._wanted.settings.budget), over_notes(unknown, self._line)
            finding = Finding("budget", Level.WARNING, place.placed.head, words, key, notes=notes, number=loop)
            self._checked.findings.append(finding)

    def _loops(self) -> list[int]:
        """The loops, in the order of the text."""
        return [it.number for it in self._served.program.statements() if it.kind is StmtKind.WHILE]

    def _line(self, number: int) -> int:
        """The line of a statement."""
        return self._checked.source.line_of(self._served.places[number].placed.span.start) + 1

    async def _add_states(self) -> None:
        """Adds what is known before each statement, and at the head of each loop."""
        for place in self._served.places.values():
            state = await self._served.state(evaluated_at(place.stmt))
            lines = (state_words(state),) if isinstance(state, Over) else state
            self._checked.states.append(StateLine(place.placed.head, lines))


def _tally(found: list[Verdict]) -> Tally:
    """How many checks have each verdict."""
    verdicts = [it.verdict for it in found]
    safe, may, fails, dead = (verdicts.count(it) for it in ("safe", "may", "fails", "dead"))
    return Tally(len(verdicts), safe, may, fails, dead)


def _calls_all(program: Program) -> bool:
    """Whether calls lead from main to all procedures."""
    called = {"main"}
    for proc in reversed(program.procs):
        if proc.name in called:
            called |= {it.callee for it in proc.statements() if it.callee}
    return len(called) == len(program.procs)


def _makes_arrays_often(program: Program) -> bool:
    """Whether arrays are made in loops, or in procedures, which loops may call."""
    for proc in program.procs:
        roots = [it for it in proc.body if proc.name != "main" or it.kind is not StmtKind.SIMPLE]
        if any(" = array " in inner.text for it in roots for inner in it.within()):
            return True
    return False
