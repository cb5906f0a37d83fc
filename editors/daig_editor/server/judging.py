"""Asks for the faults of a program: first what this needs, in small steps and by stages, then what is known beyond it."""
from __future__ import annotations

from collections import Counter
from typing import Any, Callable

from daig_editor.language.checks import CHECKS, check_of, evaluated_at, many_checks, many_faults, rule_of, rules_of
from daig_editor.language.ignores import ignored_rules, lines_of_span
from daig_editor.language.records import replace
from daig_editor.language.relevance import Relevance
from daig_editor.language.tree import Placed, Program, Stmt, StmtKind
from daig_editor.language.words import is_never, over_words
from daig_editor.server.asking import Asker, TookLong
from daig_editor.server.choices import Faults
from daig_editor.server.findings import Finding, Over, Report, Tally
from daig_editor.server.news import News
from daig_editor.server.paths import with_paths
from daig_editor.server.process import Gone, Reply
from daig_editor.server.serving import UNKNOWN_REQUEST
from daig_editor.server.session import Good, Session
from daig_editor.server.trying import Ask, failing_rules
from daig_editor.server.verdicts import Verdict, told
from daig_editor.server.watching import Options

# A question that takes longer than so many seconds is asked by stages, of which the user is told.
LONG_WORK = 1.0
MOST_STAGES = 8
MOST_EXPLAINED = 60
OLDER = "this `daig` is older: of the faults it tells those of bounds, null and assert alone"
# All faults are asked after each change where a program has so many at most; of more, when the text rests.
MOST_AT_ONCE = 500
# So many runs are tried while a long analysis runs, for what fails in one is known before its end.
RUNS_MEANWHILE = 8

# What the server says of a fault or a check at a statement.
Row = dict[str, Any]
Stage = Callable[[Placed | None, int, int], None]
Partly = Callable[[Report], None]


class Judge:
    """Judges the program of a session. `test` raises where the text is another one; `stage` hears what is computed:
    up to which statement, how much of a hundred that is, and how many cells it took so far; `partly` hears what is
    found before the end of a long analysis, and `say` what the user should know. `news` knows what the last change made."""

    def __init__(
        self,
        session: Session,
        asker: Asker,
        news: News,
        test: Callable[[], None],
        stage: Stage,
        partly: Partly,
        say: Callable[[str], None],
    ) -> None:
        self._session = session
        self._asker = asker
        self._news = news
        self._test = test
        self._stage = stage
        self._partly = partly
        self._say = say
        self._cells = 0
        self._place: Placed | None = None
        self._percent = 0

    async def report(self, good: Good, options: Options, before: Report | None) -> Report:
        """The report on the last good program. Where it takes long, some runs are tried before its end.

        Of a program with many faults it has those of checks, and keeps the others of the report `before`.
        """
        answer = await self._whole(good, options)
        wanted = options.faults
        if wanted is not Faults.CHECKS and many_faults(good.program) <= MOST_AT_ONCE:
            return await self._reported(good, answer, wanted)
        report = await self._reported(good, answer, Faults.CHECKS)
        if wanted is Faults.CHECKS:
            return report
        kept = {(it.place.stmt.number, it.rule): it for it in before.findings if it.rule not in CHECKS} if before else {}
        places = good.program.find_all({number for number, _ in kept})
        found = [
            replace(it, place=places[number], path=(), is_new=self._news.has(number, rule))
            for (number, rule), it in kept.items()
            if number in places
        ]
        return _told(replace(report, findings=report.findings + found, is_whole=False))

    async def completed(self, good: Good, report: Report, options: Options) -> Report:
        """A report with all faults that are wanted."""
        if report.is_whole:
            return report
        return await self._reported(good, await self._state("end main"), options.faults)

    async def _reported(self, good: Good, answer: Reply, faults: Faults) -> Report:
        """The report; `answer` is the state at the end of the program."""
        rows = await self._rows(good.program, faults)
        open_rows = [it for it in rows if it["verdict"] != "safe"]
        verdicts = [Verdict(it["id"], rule_of(it.get("fault") or it["check"]), it["verdict"]) for it in open_rows]
        numbers = {it.number for it in verdicts}
        places = good.program.find_all(numbers | {it for it in [answer.get("over")] if isinstance(it, int)})
        many = Counter(it.number for it in verdicts)
        findings = [self._finding(it, places[it.number], many[it.number] == 1) for it in told(verdicts)]
        over = None
        if "over" in answer:
            findings, unknown = await self._known(findings)
            over = Over(places[int(str(answer["over"]))], self.over_text(answer, unknown))
        may_come = frozenset((it.number, it.rule) for it in verdicts if it.verdict != "dead")
        return _told(Report(good.text, findings, over, _tallies(good.program, rows), may_come=may_come))

    def _finding(self, verdict: Verdict, place: Placed, alone: bool) -> Finding:
        """The finding that a verdict is."""
        number, rule, said = verdict
        is_new = said != "dead" and self._news.has(number, rule)
        return Finding(place, rule, said, ends=said == "fails", alone=alone, is_new=is_new)

    async def _rows(self, program: Program, faults: Faults) -> list[Row]:
        """The verdicts of all faults, or of checks alone, as the server says them."""
        name, wanted = "faults", many_faults
        reply = await self._ask(do="faults") if faults is not Faults.CHECKS else {"refused": UNKNOWN_REQUEST}
        if reply.get("refused") == UNKNOWN_REQUEST:
            if faults is not Faults.CHECKS:
                self._say(OLDER)
            name, wanted = "report", many_checks
            reply = await self._ask(do="report")
        rows = reply.get(name)
        if not isinstance(rows, list) or not all(isinstance(it, dict) for it in rows):
            raise Gone("it answers no report")
        if not len({(it.get("id"), it.get("fault")) for it in rows}) == len(rows) == wanted(program):
            raise Gone("its report is not of this program")
        return rows

    def over_text(self, reply: Reply, unknown: int = 0) -> str:
        """What an Over says, in words."""
        chain = reply.get("chain")
        calls = [self._session.line_of(it) for it in chain] if isinstance(chain, list) else []
        line = self._session.line_of(int(str(reply["over"])))
        return over_words(line, self._session.settings.budget, calls, unknown)

    async def _ask(self, **request: object) -> Reply:
        """A reply, where the text is still the same."""
        self._test()
        reply = await self._session.ask(**request)
        self._test()
        return reply

    async def _state(self, at: str) -> Reply:
        """The state at a location, over all calls."""
        return await self._asker.state(at, [], self._test)

    # The whole program, by stages where it takes long.

    async def _whole(self, good: Good, options: Options) -> Reply:
        """The state at the end of the program, for which nearly all has to be computed."""
        try:
            return await self._asker.state("end main", [], self._test, None, LONG_WORK)
        except TookLong:
            self._cells = 0
        await self._try_runs(good, options)
        stages = _stages(good.program)
        for number, place in enumerate(stages):
            self._enter(place, number * 100 // len(stages))
            await self._asker.state(f"after {place.stmt.number}", [], self._test, self._stepped)
        self._enter(None, 99)
        return await self._asker.state("end main", [], self._test, self._stepped)

    async def _try_runs(self, good: Good, options: Options) -> None:
        """Tells of what fails in runs."""
        rules = _checks if options.faults is Faults.CHECKS else rules_of
        wanted = {(it.number, rule) for it in good.program.statements() for rule in rules(it)}
        inputs = await failing_rules(self._ask, good.text.data, wanted, min(options.runs, RUNS_MEANWHILE))
        places = good.program.find_all({number for number, _ in inputs})
        found = [Finding(places[n], rule, "may", inputs=with_inputs) for (n, rule), with_inputs in inputs.items()]
        found.sort(key=lambda it: it.place.head.start)
        partly = _told(Report(good.text, found, None, partial=True))
        if partly.findings:
            self._partly(partly)

    def _enter(self, place: Placed | None, percent: int) -> None:
        """A stage begins."""
        self._place, self._percent = place, percent
        self._stage(place, percent, self._cells)

    def _stepped(self, cells: int) -> None:
        """A step was made."""
        self._cells += cells
        self._stage(self._place, self._percent, self._cells)

    # What is known of the findings.

    async def _known(self, findings: list[Finding]) -> tuple[list[Finding], int]:
        """The findings where a state is known, and at how many nothing is."""
        known = []
        for it in findings:
            if it.verdict != "may" or "over" not in await self._state(evaluated_at(it.place.stmt)):
                known.append(it)
        return known, len(findings) - len(known)

    async def explained(self, good: Good, report: Report, runs: int) -> Report:
        """The report with causes, with inputs of runs that fail, and with what fails always."""
        inputs = await failing_rules(self._ask, good.text.data, set(report.may_come), runs)
        findings = [replace(it, inputs=inputs.get((it.place.stmt.number, it.rule))) for it in report.findings]
        findings = await with_paths(good, findings)
        self._test()
        findings.sort(key=lambda it: (it.weight, it.verdict == "dead"))
        first = [it for it in findings if it.verdict != "dead"][:MOST_EXPLAINED]
        certain = {it.place.stmt.number for it in findings if it.verdict == "fails"}
        places = {it.stmt.number: (proc, it) for proc in good.program.procs for it in proc.placed()} if first else {}
        relevance = Relevance(places)
        explained = {id(it): await self._explain(good, it, certain, relevance) for it in first}
        return _told(replace(report, findings=[explained.get(id(it), it) for it in findings]))

    async def _explain(self, good: Good, finding: Finding, certain: set[int], relevance: Relevance) -> Finding:
        """One finding with what is known about it; at `certain` statements it is known that no run goes on."""
        stmt = finding.place.stmt
        causes = {it.stmt.number: it for it in await causes_of(self._ask, good, stmt)}
        ordered = tuple(causes[it] for it in relevance.ordered(stmt.number, causes))
        ends = finding.ends
        if stmt.number not in certain and stmt.kind is StmtKind.SIMPLE and not stmt.callee:
            ends = is_never(str((await self._state(f"after {stmt.number}")).get("state", "")))
        return replace(finding, ends=ends, causes=ordered)


def _checks(stmt: Stmt) -> list[str]:
    """The check of a statement, if it has one."""
    check = check_of(stmt)
    return [check] if check else []


def _told(report: Report) -> Report:
    """A report in the order in which it is told, without what comments of its text ignore."""
    report = _without_ignored(report)
    return replace(report, findings=sorted(report.findings, key=lambda it: (it.weight, it.place.head.start)))


def _without_ignored(report: Report) -> Report:
    """A report without what comments of its text ignore."""
    rules = ignored_rules(report.text)
    if not rules:
        return report

    def is_told(place: Placed, rule: str) -> bool:
        """Whether no comment ignores a rule's finding at a place."""
        return not any(rule in rules.get(it, ()) for it in lines_of_span(report.text, place.head))

    found = [it for it in report.findings if is_told(it.place, it.rule)]
    over = report.over if report.over and is_told(report.over.loop, "budget") else None
    return replace(report, findings=found, over=over)


async def causes_of(ask: Ask, good: Good, stmt: Stmt) -> list[Placed]:
    """The statements that the state at a statement hangs on, in the order of the text."""
    why = (await ask(do="why", at=evaluated_at(stmt))).get("why")
    numbers = {it for it in why if it != stmt.number} if isinstance(why, list) else set()
    return sorted(good.program.find_all(numbers).values(), key=lambda it: it.head.start)


def _stages(program: Program) -> list[Placed]:
    """Statements of main after which a part of it is done: its outermost loops, choices and calls."""
    main = program.proc("main")
    places = list(zip(main.body, main.starts)) if main else []
    found = [Placed(it, base) for it, base in places if it.kind is not StmtKind.SIMPLE or it.callee]
    every = -(-len(found) // MOST_STAGES) or 1
    return found[every - 1 :: every]


def heaviest(program: Program) -> Placed | None:
    """The first of the loops with most loops in each other, in which most work is likely to be."""
    loops = [it for it in program.placed() if it.stmt.kind is StmtKind.WHILE]
    return max(loops, key=lambda it: _depth(it.stmt)) if loops else None


def _depth(stmt: Stmt) -> int:
    """How many loops in each other a statement has."""
    inner = max(map(_depth, [*stmt.then, *stmt.other]), default=0)
    return inner + (stmt.kind is StmtKind.WHILE)


def _tallies(program: Program, rows: list[Row]) -> dict[str, Tally]:
    """How many checks each procedure has, and how many are safe."""
    if len(program.procs) == 1:
        return {"main": Tally(len(rows), sum(it["verdict"] == "safe" for it in rows))}
    owners = {it.number: proc.name for proc in program.procs for it in proc.statements()}
    tallies = {proc.name: Tally() for proc in program.procs}
    for it in rows:
        tally = tallies[owners[it["id"]]]
        tally.checks += 1
        tally.safe += it["verdict"] == "safe"
    return tallies
