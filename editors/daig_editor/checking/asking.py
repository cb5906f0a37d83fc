"""A server with the program that it has: asked in the terms of the program, its replies tested."""
from __future__ import annotations

from typing import Iterable, NamedTuple

from daig_editor.language.checks import check_of, rule_of, rules_of
from daig_editor.language.records import dataclass
from daig_editor.language.tree import Placed, Proc, Program, Stmt
from daig_editor.language.words import NEVER, is_never, state_lines
from daig_editor.server.choices import Faults
from daig_editor.server.serving import UNKNOWN_REQUEST, Reply, Server
from daig_editor.server.verdicts import Verdict

VERDICTS = ("safe", "may", "dead", "fails")


class BadReply(Exception):
    """The program answers what is no reply."""


@dataclass(frozen=True)
class Over:
    """A loop that used up its budget, by its number, under the calls to its procedure."""

    loop: int
    chain: tuple[int, ...]


class Place(NamedTuple):
    """A statement in its procedure."""

    proc: Proc
    placed: Placed

    @property
    def stmt(self) -> Stmt:
        """The statement."""
        return self.placed.stmt


State = tuple[str, ...] | Over
NEVER_REACHED = (NEVER,)


class Served:
    """A running server, and the program that it has, whose statements are numbered as the server's are.

    `is_older`: it was asked for all faults, and knows those of checks alone.
    """

    def __init__(self, server: Server, program: Program) -> None:
        self.server = server
        self.is_older = False
        self.take(program)

    def take(self, program: Program) -> None:
        """The server has another program now."""
        self.program = program
        self.places = {it.stmt.number: Place(proc, it) for proc in program.procs for it in proc.placed()}

    async def state(self, at: str, call: int | None = None) -> State:
        """What is known at a location, of all calls or from one alone: in words, or the loop that used up its budget."""
        string = [] if call is None else [call]
        reply = await self.server.ask(do="state", at=at, string=string)
        if "over" in reply:
            return self._over(reply)
        if reply.get("refused") == 10:
            return ("never called",)
        text = reply.get("state")
        if not isinstance(text, str):
            raise BadReply(f"it answers {str(reply)[:80]} where a state is asked")
        return tuple(state_lines(text))

    def _over(self, reply: Reply) -> Over:
        """The loop that a reply names."""
        loop, chain = reply.get("over"), reply.get("chain")
        if not isinstance(loop, int) or loop not in self.places or not isinstance(chain, list):
            raise BadReply(f"it answers {str(reply)[:80]} where a state is asked")
        return Over(loop, tuple(it for it in chain if it in self.places))

    async def goes_on(self, at: str) -> bool:
        """Whether a run may come to a location."""
        return not is_never(str((await self.server.ask(do="state", at=at)).get("state", "")))

    async def verdicts(self, faults: Faults) -> list[Verdict]:
        """The verdicts of all faults, or of checks alone, in the order of the text; each fault of the program has one."""
        if faults is not Faults.CHECKS and not self.is_older:
            reply = await self.server.ask(do="faults")
            self.is_older = reply.get("refused") == UNKNOWN_REQUEST
            if not self.is_older:
                wanted = [(it.stmt, rules_of(it.stmt)) for it in self.program.placed()]
                return self._read(reply.get("faults"), "fault", wanted)
        rows = (await self.server.ask(do="report")).get("report")
        checks = [(it.stmt, check_of(it.stmt)) for it in self.program.placed()]
        return self._read(rows, "check", [(stmt, [check]) for stmt, check in checks if check])

    def _read(self, rows: object, name: str, wanted: list[tuple[Stmt, list[str]]]) -> list[Verdict]:
        """Rows with a verdict each, of these statements and rules; the rules of a statement come in any order."""
        if not isinstance(rows, list) or not all(isinstance(it, dict) and isinstance(it.get(name), str) for it in rows):
            raise BadReply("it answers no report")
        found = [Verdict(it.get("id"), rule_of(it[name]), it.get("verdict")) for it in rows]
        numbers = [stmt.number for stmt, rules in wanted for _ in rules]
        if [it.number for it in found] != numbers or any(it.verdict not in VERDICTS for it in found):
            raise BadReply("its report is not of this program")
        if {(it.number, it.rule) for it in found} != {(stmt.number, rule) for stmt, rules in wanted for rule in rules}:
            raise BadReply("its report is not of this program")
        return found

    async def why(self, at: str) -> list[int]:
        """The statements that a location hangs on."""
        numbers = (await self.server.ask(do="why", at=at)).get("why")
        if not isinstance(numbers, list) or not all(it in self.places for it in numbers):
            raise BadReply("it answers no list of statements where why is asked")
        return numbers

    async def cells(self) -> int:
        """How many cells are kept."""
        kept = (await self.server.ask(do="cost")).get("kept")
        if not isinstance(kept, int):
            raise BadReply("it answers no cost")
        return kept


def ordinals(program: Program, told: Iterable[tuple[int, str]]) -> dict[tuple[int, str], int]:
    """The number of each told statement and rule, from 0, among those of its procedure that print alike, by this rule."""
    procs = {it.number: (proc.name, it.text) for proc in program.procs for it in proc.statements()}
    many: dict[tuple[str, str, str], int] = {}
    found: dict[tuple[int, str], int] = {}
    for number, rule in told:
        kind = (*procs[number], rule)
        found[number, rule] = many.get(kind, 0)
        many[kind] = found[number, rule] + 1
    return found
