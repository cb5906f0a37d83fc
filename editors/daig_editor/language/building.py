"""Puts the pieces of a text together to a program."""
from __future__ import annotations

from daig_editor.language.pieces import Piece, PieceKind, PieceReader
from daig_editor.language.records import dataclass, replace
from daig_editor.language.tokens import Fault
from daig_editor.language.tree import Proc, Program, Span, Stmt, StmtKind

MOST_NESTING = 32


@dataclass(frozen=True, slots=True)
class Unread:
    """A piece with a fault."""

    spelling: bytes
    fault: Fault


class ProgramBuilder:
    """Puts pieces together to a program."""

    def __init__(self) -> None:
        self.procs: list[Proc] = []
        self.proc: Proc | None = None
        self.owners: list[Stmt] = []
        self.blocks: list[list[Stmt]] = []
        self.closed_if: Stmt | None = None
        self.root = 0

    def begin_with(self, proc: Proc, many: int, start: int) -> int:
        """Begins with the first statements of a procedure; answers where they end, or `start` where there are none."""
        # An `else` may have come after an `if`.
        while many and proc.body[many - 1].kind is StmtKind.IF:
            many -= 1
        if many == 0:
            return start
        self.proc = replace(proc, locals=list(proc.locals), body=proc.body[:many], starts=proc.starts[:many])
        self.blocks = [self.proc.body]
        return proc.starts[many - 1] + proc.body[many - 1].span.end

    def end_with(self, proc: Proc, many: int, shift: int) -> None:
        """Ends the procedure with the last statements of another, after the first ones."""
        assert self.proc is not None
        self.proc.body += proc.body[many:]
        self.proc.starts += [it + shift for it in proc.starts[many:]]
        self.proc.span = Span(self.proc.span.start, proc.span.end + shift)
        self.procs.append(self.proc)

    def add(self, piece: Piece | Unread, offset: int) -> None:
        """Adds the piece that begins at a place."""
        if isinstance(piece, Unread):
            raise self.fault_of_piece(piece, offset)
        kind = piece.kind
        if kind is PieceKind.SIMPLE and self.proc:
            span = self.span(piece, offset)
            self.blocks[-1].append(Stmt(StmtKind.SIMPLE, piece.text, span, span, piece.callee, [], [], piece.text))
            self.closed_if = None
            return
        if not self.allows(kind):
            raise self.misplaced(piece.first.moved(offset), kind.value)
        closed_if, self.closed_if = self.closed_if, None
        if kind is PieceKind.CLOSE:
            self.close(offset + piece.end)
        elif kind is PieceKind.PROC:
            self.open_proc(piece, offset)
        elif kind is PieceKind.VAR and self.proc and piece.name:
            self.proc.locals.append(piece.name.moved(offset))
        else:
            self.open_block(piece, offset, closed_if)

    def span(self, piece: Piece, offset: int) -> Span:
        """The span of a piece of a statement, from the start of the outermost statement around."""
        if not self.owners and self.proc and piece.kind is not PieceKind.ELSE:
            self.root = offset + piece.first.start
            self.proc.starts.append(self.root)
        return Span(offset + piece.first.start - self.root, offset + piece.end - self.root)

    def allows(self, kind: PieceKind) -> bool:
        """Whether a piece of this kind may come next."""
        if self.proc is None or kind is PieceKind.PROC:
            return self.proc is None and kind is PieceKind.PROC
        if kind is PieceKind.VAR:
            return not self.proc.body and not self.owners
        return kind is not PieceKind.ELSE or self.closed_if is not None

    def misplaced(self, span: Span, word: str) -> Fault:
        """The fault of a piece that may not come here, at its first token."""
        if self.proc is None:
            return Fault("Unexpected", span, ("`proc`",), word)
        return Fault("Unexpected", span, ("`}`",) if word == "proc" else ("a statement",), word)

    def fault_of_piece(self, unread: Unread, offset: int) -> Fault:
        """The fault of a piece that is not read: at its first token where none of its kind may come here."""
        if unread.fault.name not in ("Unexpected", "TooDeep"):
            return unread.fault.moved(offset)
        first = PieceReader(unread.spelling).token()
        kinds = {it.value: it for it in PieceKind if it is not PieceKind.SIMPLE}
        if not self.allows(kinds.get(first.word, PieceKind.SIMPLE)):
            return self.misplaced(first.span.moved(offset), first.word or "the end")
        return unread.fault.moved(offset)

    def open_proc(self, piece: Piece, offset: int) -> None:
        """Begins a procedure."""
        assert piece.name is not None
        name = piece.name.moved(offset)
        params = tuple(it.moved(offset) for it in piece.params)
        result = piece.result.moved(offset) if piece.result else None
        span = Span(offset + piece.first.start, offset + piece.end)
        self.proc = Proc(name.name, name.span, params, result, [], [], [], span)
        self.blocks = [self.proc.body]

    def open_block(self, piece: Piece, offset: int, closed_if: Stmt | None) -> None:
        """Begins a block of an `if` or a loop."""
        end = offset + piece.end
        if len(self.owners) == MOST_NESTING:
            raise Fault("TooDeep", Span(end - 1, end))
        if piece.kind is PieceKind.ELSE and closed_if is not None:
            self.owners.append(closed_if)
            self.blocks.append(closed_if.other)
            return
        head = self.span(piece, offset)
        stmt = Stmt(StmtKind(piece.kind.value), piece.text, head, head)
        self.blocks[-1].append(stmt)
        self.owners.append(stmt)
        self.blocks.append(stmt.then)

    def close(self, end: int) -> None:
        """Ends a block or the procedure."""
        block = self.blocks.pop()
        if not self.owners:
            assert self.proc is not None
            self.proc.span = Span(self.proc.span.start, end)
            self.procs.append(self.proc)
            self.proc = None
            return
        owner = self.owners.pop()
        owner.span = Span(owner.span.start, end - self.root)
        then, other = tuple(it.key for it in owner.then), tuple(it.key for it in owner.other)
        owner.key = (owner.kind, owner.text, then, other)
        if owner.kind is StmtKind.IF and block is owner.then:
            self.closed_if = owner

    def finish(self, text: bytes, start: int) -> Program:
        """The program, where the text after its last piece has no token."""
        rest = text[start:]
        reader = PieceReader(rest)
        if reader.token().kind == "end":
            if self.proc is None and self.procs:
                return Program(self.procs)
            # The last token is the one that ends the last piece.
            raise Fault("Unexpected", Span(start, start), ("`}`" if self.proc else "`proc`",), "the end")
        try:
            reader.piece()
        except Fault as fault:
            raise self.fault_of_piece(Unread(rest, fault), start) from None
        raise AssertionError("a piece without its end is read")
