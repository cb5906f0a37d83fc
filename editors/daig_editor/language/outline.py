"""What any text says of its procedures, variables and blocks, whether it is a program or not yet one."""
from __future__ import annotations

from bisect import bisect_right
from functools import cached_property
from typing import NamedTuple

from daig_editor.language.records import dataclass, field
from daig_editor.language.tokens import KINDS, Token, scanned
from daig_editor.language.tree import Span, Variable

NO_TOKEN = Token("", Span(0, 0), "end")


class Declared(NamedTuple):
    """What a name stands for: a procedure, or a parameter, the result or a local variable of one."""

    variable: Variable
    role: str


class Occurrence(NamedTuple):
    """A name in the text, what it stands for if that is known, and whether it is declared here."""

    token: Token
    declared: Declared | None
    declares: bool
    calls: bool


@dataclass
class ProcOutline:
    """A procedure as far as the text has it; `body` is where its `{` stands, or the end of its head."""

    name: Variable
    span: Span
    body: int
    variables: list[Declared] = field(default_factory=list)

    @cached_property
    def named(self) -> dict[str, Declared]:
        """Its variables by their names; of two the first."""
        return {it.variable.name: it for it in reversed(self.variables)}

    def of_role(self, role: str) -> list[Variable]:
        """Its variables of a role."""
        return [it.variable for it in self.variables if it.role == role]

    @property
    def signature(self) -> str:
        """How it is called: `(x: int) -> r: int`."""
        params = ", ".join(it.text for it in self.of_role("parameter"))
        return f"({params})" + "".join(f" -> {it.text}" for it in self.of_role("result"))


class Block(NamedTuple):
    """A block from its `{` to its `}`; `end` is the end of the text where there is none."""

    start: int
    end: int
    closed: bool


class Outline:
    """The tokens of a text, its procedures, its blocks, and what each name stands for."""

    def __init__(self, text: bytes) -> None:
        self.text = text
        self.tokens = list(scanned(text))
        self.code = [it for it in self.tokens if it.kind != "comment"]
        self.procs: list[ProcOutline] = []
        self.blocks: list[Block] = []
        self._uses: list[tuple[Token, int, bool, bool]] = []
        _Pass(self).run()

    @cached_property
    def called(self) -> dict[str, ProcOutline]:
        """The procedures by their names; of two the first."""
        return {it.name.name: it for it in reversed(self.procs)}

    @cached_property
    def occurrences(self) -> list[Occurrence]:
        """Every name of the text, in its order."""
        return [self._occurrence(*it) for it in self._uses]

    def _occurrence(self, token: Token, index: int, declares: bool, calls: bool) -> Occurrence:
        """One name."""
        if calls or (declares and index >= 0 and self.procs[index].name.span == token.span):
            proc = self.procs[index] if declares else self.called.get(token.word)
            return Occurrence(token, Declared(proc.name, "procedure") if proc else None, declares, calls)
        named = self.procs[index].named if index >= 0 else {}
        return Occurrence(token, named.get(token.word), declares, False)

    def occurrence_at(self, place: int) -> Occurrence | None:
        """The name that a cursor at a place touches."""
        index = bisect_right(self.occurrences, place, key=lambda it: it.token.span.start) - 1
        if index >= 0 and self.occurrences[index].token.span.holds(place):
            return self.occurrences[index]
        return None

    def same(self, declared: Declared) -> list[Occurrence]:
        """All names that stand for the same as another one."""
        return [it for it in self.occurrences if it.declared == declared]

    def proc_at(self, place: int) -> ProcOutline | None:
        """The procedure at a place."""
        return next((it for it in self.procs if it.span.holds(place)), None)

    def index_before(self, place: int) -> int:
        """How many tokens, without the comments, end at a place or before it."""
        return bisect_right(self.code, place, key=lambda it: it.span.end)

    def comment_at(self, place: int) -> bool:
        """Whether a place is inside a comment."""
        index = bisect_right(self.tokens, place, key=lambda it: it.span.start) - 1
        return index >= 0 and self.tokens[index].kind == "comment" and place <= self.tokens[index].span.end


class _Pass:
    """One walk over the tokens of an outline."""

    def __init__(self, outline: Outline) -> None:
        self.outline = outline
        self.open: list[Token] = []
        self.proc: ProcOutline | None = None
        self.in_head = False

    def run(self) -> None:
        """Finds procedures, blocks and names."""
        code = self.outline.code
        before, index = NO_TOKEN, 0
        for index, token in enumerate(code):
            if token.word == "proc":
                self._end_proc(token.span.start)
                self._begin_proc(index)
            elif token.word == "{":
                self._open(token)
            elif token.word == "}":
                self._close(token)
            elif token.is_name() and before.word != ".":
                self._name(index, before)
            before = token
        self._end_proc(len(self.outline.text))

    def _begin_proc(self, index: int) -> None:
        """A head begins."""
        code = self.outline.code
        token, name = code[index], code[index + 1] if index + 1 < len(code) else NO_TOKEN
        named = Variable(name.word, "proc", name.span) if name.is_name() else Variable("", "proc", token.span)
        self.proc, self.in_head = ProcOutline(named, token.span, token.span.end), True
        self.outline.procs.append(self.proc)

    def _end_proc(self, end: int) -> None:
        """A procedure ends, with its `}` or without."""
        for token in self.open:
            self.outline.blocks.append(Block(token.span.start, end, False))
        self.open = []
        if self.proc:
            self.proc.span = Span(self.proc.span.start, max(end, self.proc.span.end))
        self.proc, self.in_head = None, False

    def _open(self, token: Token) -> None:
        """A `{`."""
        if self.proc and self.in_head:
            self.proc.body, self.in_head = token.span.start, False
        self.open.append(token)

    def _close(self, token: Token) -> None:
        """A `}`."""
        if self.open:
            self.outline.blocks.append(Block(self.open.pop().span.start, token.span.end, True))
        if not self.open:
            self._end_proc(token.span.end)

    def _name(self, index: int, before: Token) -> None:
        """A name that is declared or used."""
        code, token = self.outline.code, self.outline.code[index]
        after = [it.word for it in code[index + 1 : index + 3]] + ["", ""]
        calls, declares = before.word == "call", before.word == "proc"
        if self.proc and after[0] == ":" and (self.in_head or before.word == "var"):
            kind = after[1] if after[1] in KINDS else ""
            role = "local" if not self.in_head else "result" if before.word == "->" else "parameter"
            self.proc.variables.append(Declared(Variable(token.word, kind, token.span), role))
            declares = True
        proc = len(self.outline.procs) - 1 if self.proc else -1
        self.outline._uses.append((token, proc, declares, calls))
