"""What a change does: the old text is served, the change sent as edits, and what is known before and after compared."""
from __future__ import annotations

from daig_editor.checking.analysis import Wanted, add_findings, analyse, served, told_in
from daig_editor.checking.asking import Served, State, ordinals
from daig_editor.checking.matching import Matches, Spot
from daig_editor.checking.refused import read_program
from daig_editor.checking.revisions import OldText
from daig_editor.checking.words import state_words, verdict_words
from daig_editor.language.edits import NoPlan, plan
from daig_editor.language.places import SourceText
from daig_editor.language.records import dataclass, field, replace
from daig_editor.language.tree import Program, Span, number_from_one
from daig_editor.reports.finding import WHOLE_FILE, CheckedFile, Finding, Key, Level, trouble
from daig_editor.reports.shown import plural
from daig_editor.reports.tool import CHECK_RULES
from daig_editor.server.verdicts import Verdict

SPOTS = {
    "head": "the state at the head of this loop changed",
    "before": "the state before this statement changed",
    "after": "the state after this statement changed",
    "end": "the state at the end of this procedure changed",
}


# How bad a finding is: a lower number is worse.
BADNESS = {Level.ERROR: 0, Level.WARNING: 1, Level.NOTE: 2}


@dataclass(frozen=True)
class _Known:
    """What is known of a program: the verdicts by their statements, the states by their locations, and the levels of
    findings by their statements and rules, where new ones are to be told from them."""

    verdicts: dict[tuple[int, str], Verdict]
    states: dict[str, State]
    levels: dict[tuple[int, str], Level] = field(default_factory=dict)


async def analyse_against(name: str, data: bytes, old: OldText, wanted: Wanted, by_edits: bool = True) -> CheckedFile:
    """Checks a file and tells what changed in it. Without `by_edits` both texts are analysed as a whole."""
    if data == old.data:
        return _unchanged(await analyse(name, data, wanted), wanted)
    program, _ = read_program(data)
    if program is None:
        return await analyse(name, data, wanted)
    checked = CheckedFile(name, SourceText.of(data, True))
    without_old = CheckedFile(old.name, SourceText.of(b"", True))
    with told_in(without_old):
        async with served(old.data, wanted.settings) as server:
            comparison = await _Comparison.begun(checked, program, wanted, server, old.data)
            with told_in(checked):
                await comparison.ask_new(server if by_edits else None)
    if without_old.findings:
        checked = await analyse(name, data, wanted)
        checked.findings += [
            trouble(f"nothing to compare with: {old.name}: {it.message}", "old") for it in without_old.findings
        ]
    return checked


@dataclass(frozen=True)
class _Comparison:
    """A file after a change, its statements as they match those before, and what was known before."""

    checked: CheckedFile
    program: Program
    wanted: Wanted
    matches: Matches
    old: _Known

    @staticmethod
    async def begun(
        checked: CheckedFile, program: Program, wanted: Wanted, server: Served, source: bytes
    ) -> _Comparison:
        """A comparison, for which all is asked before the change; `source` is the text then."""
        matches = Matches(server.program, program)
        old = await _known(server, wanted, [it.old for it in matches.told()])
        if wanted.new:
            before = CheckedFile(checked.name, SourceText.of(source, True))
            await add_findings(before, server, replace(wanted, states=False, causes=False))
            old = replace(old, levels={(it.number, it.rule): it.level for it in before.findings})
        return _Comparison(checked, program, wanted, matches, old)

    async def ask_new(self, server: Served | None) -> None:
        """Leads the server to the new text, or starts another one, and tells what changed."""
        if server and await self._edit(server):
            await self._tell(server)
            return
        async with served(self.checked.source.data, self.wanted.settings) as other:
            # The tree that has been matched takes the numbers of a text that is loaded.
            number_from_one(self.program)
            other.take(self.program)
            await self._tell(other)

    async def _edit(self, server: Served) -> bool:
        """Leads the server to the new text by edits, where some do."""
        try:
            found = plan(server.program, self.program, max(server.places, default=0) + 1)
        except NoPlan:
            return False
        for request in found.requests:
            if (await server.server.ask(**request.fields)).get("next") != request.next:
                return False
        found.commit()
        server.take(self.program)
        return True

    async def _tell(self, server: Served) -> None:
        """Adds the findings of the new text, and what changed."""
        kept = await server.cells()
        new = await _known(server, self.wanted, [])
        all_cells = await server.cells()
        before = {it.new.number: it.old.number for it in self.matches.pairs}
        old = self.old.verdicts
        same = {(now, rule): old[before[now], rule] for now, rule in new.verdicts if (before.get(now), rule) in old}
        await add_findings(self.checked, server, self.wanted, {it: was.verdict for it, was in same.items()})
        if self.wanted.new:
            self._leave_out_old()
        which = ordinals(self.program, new.verdicts)
        for it, now in new.verdicts.items():
            was = same.get(it)
            if was and now.verdict == "safe" and was.verdict != "safe":
                self._add_safe(server, now, was, which[it])
        for spot in self.matches.told():
            await self._add_state(server, spot)
        self.checked.findings.append(_cells(all_cells - kept, all_cells))
        self.checked.sort()

    def _leave_out_old(self) -> None:
        """Leaves out the findings that were there before the change, at least as bad as they are now."""
        before = {it.new.number: it.old.number for it in self.matches.pairs}

        def is_new(finding: Finding) -> bool:
            """Whether a finding was not there before."""
            was = self.old.levels.get((before.get(finding.number, 0), finding.rule))
            return was is None or BADNESS[was] > BADNESS[finding.level]

        new = [it for it in self.checked.findings if it.rule not in CHECK_RULES or is_new(it)]
        self.checked.known_before += len(self.checked.findings) - len(new)
        self.checked.findings = new

    def _add_safe(self, server: Served, now: Verdict, was: Verdict, ordinal: int) -> None:
        """Adds that a check is safe now."""
        place = server.places[now.number]
        key = Key(place.proc.name, place.stmt.text, f"{now.rule} change", ordinal)
        words = f"safe now; before the change: {verdict_words(was.rule, was.verdict)}"
        self._add(place.placed.head, words, key)

    async def _add_state(self, server: Served, spot: Spot) -> None:
        """Adds that a state is another now, where it is."""
        was, now = state_words(self.old.states[spot.old]), state_words(await server.state(spot.new))
        if was == now:
            return
        proc = self.program.proc(spot.proc)
        assert proc is not None
        span, text, which = proc.name_span, "", 0
        if spot.match:
            place = server.places[spot.match.new.number]
            span, text = place.placed.head, place.stmt.text
            which = [it.number for it in proc.statements() if it.text == text].index(place.stmt.number)
        self._add(
            span,
            SPOTS[spot.at],
            Key(spot.proc, text, f"{spot.at} change", which),
            (f"before the change: {was}", f"now: {now}"),
        )

    def _add(self, span: Span, words: str, key: Key, notes: tuple[str, ...] = ()) -> None:
        """Adds a note on the change."""
        self.checked.findings.append(Finding("change", Level.NOTE, span, words, key, notes=notes))


async def _known(server: Served, wanted: Wanted, locations: list[str]) -> _Known:
    """What is known of the server's program, at these locations."""
    await server.state("end main")
    verdicts = {(it.number, it.rule): it for it in await server.verdicts(wanted.faults)}
    return _Known(verdicts, {it: await server.state(it) for it in locations})


def _unchanged(checked: CheckedFile, wanted: Wanted) -> CheckedFile:
    """A file that did not change: none of its findings is new."""
    if wanted.new:
        always = [it for it in checked.findings if it.rule not in CHECK_RULES]
        checked.known_before += len(checked.findings) - len(always)
        checked.findings = always
    return checked


def new_file(checked: CheckedFile, old: str) -> None:
    """Adds that there was no such file before the change."""
    checked.findings.append(Finding("change", Level.NOTE, WHOLE_FILE, f"new: there is no {old}", Key("", "", "new")))


def _cells(computed: int, kept: int) -> Finding:
    """How much of the analysis the change made anew."""
    words = f"{computed:,} of {plural(kept, 'cell').replace(str(kept), f'{kept:,}')} computed again"
    return Finding("change", Level.NOTE, WHOLE_FILE, words, Key("", "", "cells"))
