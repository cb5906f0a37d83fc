"""Reads the pieces that the text of a program is made of, by their tokens.

A piece goes up to a `;`, `{` or `}` outside comments: a statement, a declaration, the head of a procedure, an `if` or
a loop, an `else {`, or a `}`. The grammar is that of docs/LANGUAGE.md.
"""
from __future__ import annotations

from enum import Enum
from itertools import islice

from daig_editor.language.records import dataclass
from daig_editor.language.tokens import KINDS, RELATIONS, Fault, Token, tokens
from daig_editor.language.tree import Span, Variable

MOST_OPERATORS = 32
# So many tokens are cut at a time: a piece that is no piece is mostly found out by its first ones.
TOKENS_AT_A_TIME = 64


class PieceKind(Enum):
    PROC = "proc"
    VAR = "var"
    SIMPLE = "simple"
    IF = "if"
    WHILE = "while"
    ELSE = "else"
    CLOSE = "}"


@dataclass(frozen=True, slots=True)
class Piece:
    """What one piece says: its first token's span, where its last token ends, and its parts."""

    kind: PieceKind
    first: Span
    end: int
    text: str = ""
    callee: str | None = None
    name: Variable | None = None
    params: tuple[Variable, ...] = ()
    result: Variable | None = None


class PieceReader:
    """Reads the tokens of one piece. Its faults stand at bytes of the piece.

    The tokens are cut as they are wanted; what is wrong with the spelling of later ones is not its matter.
    """

    def __init__(self, piece: bytes) -> None:
        self.tokens: list[Token] = []
        self.at = 0
        self.operators = 0
        self._rest = tokens(piece)
        self._more()

    # The tokens one by one.

    def _more(self) -> None:
        """Cuts more tokens; after the last one stands an empty one."""
        more = list(islice(self._rest, TOKENS_AT_A_TIME))
        self.tokens += more
        if len(more) < TOKENS_AT_A_TIME:
            end = self.tokens[-1].span.end if self.tokens else 0
            self.tokens.append(Token("", Span(end, end), "end"))

    def token(self, ahead: int = 0) -> Token:
        """The token so many ahead, and the empty one after the last one."""
        place = self.at + ahead
        while place >= len(self.tokens):
            if self.tokens[-1].kind == "end":
                return self.tokens[-1]
            self._more()
        return self.tokens[place]

    def peek(self, ahead: int = 0) -> str:
        """The word so many tokens ahead, and nothing after the last one."""
        return self.token(ahead).word

    def fault(self, name: str, *wanted: str) -> Fault:
        """A fault at the present token, and what is wanted there."""
        token = self.token()
        before = self.tokens[self.at - 1].word if self.at else ""
        return Fault(name, token.span, wanted, token.word or "the end", before)

    def take(self, *words: str) -> str:
        """Takes the present token, which must be one of these words."""
        word = self.peek()
        if word not in words:
            raise self.fault("Unexpected", *(f"`{it}`" for it in words))
        self.at += 1
        return word

    def is_name(self) -> bool:
        """Whether the present token is a name."""
        return self.token().is_name()

    def name(self, wanted: str = "a name", kind: str = "") -> Token:
        """Takes a name, of a variable of a kind where one is said."""
        token = self.token()
        if not token.is_name():
            raise self.fault("Unexpected", wanted)
        self.at += 1
        if kind:
            self.use(token, kind)
        return token

    def use(self, token: Token, kind: str) -> None:
        """Hears of the use of a variable, and of the kind that it should have."""

    def operator(self, *words: str) -> str:
        """Takes an operator, of which one expression has so many at most."""
        if self.peek() in words and self.operators == MOST_OPERATORS:
            raise self.fault("TooDeep")
        self.operators += 1
        return self.take(*words)

    # Expressions and conditions: their text as the server prints it, and their rank.

    def whole_expr(self) -> str:
        """An outermost expression."""
        self.operators = 0
        return self.expr()[0]

    def whole_cond(self) -> str:
        """An outermost condition."""
        self.operators = 0
        return self.cond()[0]

    def expr(self) -> tuple[str, int]:
        """Sums and differences have rank 1."""
        left = self.term()
        while self.peek() in ("+", "-"):
            mark = self.operator("+", "-")
            left = (_joined(left, mark, self.term(), 1), 1)
        return left

    def term(self) -> tuple[str, int]:
        """Products, quotients and remainders have rank 2."""
        left = self.factor()
        while self.peek() in ("*", "/", "%"):
            mark = self.operator("*", "/", "%")
            left = (_joined(left, mark, self.factor(), 2), 2)
        return left

    def factor(self) -> tuple[str, int]:
        """What stands alone has rank 3; an expression in parentheses has its own rank."""
        word = self.peek()
        if word == "-":
            self.operator("-")
            return "-" + _wrapped(self.factor(), 3), 3
        if word == "(":
            self.operator("(")
            inner = self.expr()
            self.take(")")
            return inner
        if word == "len":
            self.take("len")
            return f"len {self.name('an array', 'array').word}", 3
        if self.token().kind == "number":
            self.at += 1
            return word.lstrip("0") or "0", 3
        return self.name("an expression", "int").word, 3

    def cond(self) -> tuple[str, int]:
        """Alternatives have rank 1."""
        left = self.conj()
        while self.peek() == "||":
            mark = self.operator("||")
            left = (_joined(left, mark, self.conj(), 1), 1)
        return left

    def conj(self) -> tuple[str, int]:
        """Conjunctions have rank 2."""
        left = self.unit()
        while self.peek() == "&&":
            mark = self.operator("&&")
            left = (_joined(left, mark, self.unit(), 2), 2)
        return left

    def unit(self) -> tuple[str, int]:
        """Comparisons and negations have rank 3; a condition in parentheses has its own rank."""
        negated = self.peek() == "!"
        if negated:
            self.operator("!")
            if self.peek() != "(":
                raise self.fault("Unexpected", "`(`")
        if self.peek() == "(":
            self.operator("(")
            inner = self.cond()
            self.take(")")
            return (f"!({inner[0]})", 3) if negated else inner
        left = self.side()
        if self.peek() not in RELATIONS:
            raise self.fault("Unexpected", "a comparison")
        mark = self.operator(*RELATIONS)
        return f"{left} {mark} {self.side()}", 3

    def side(self) -> str:
        """One side of a comparison, or an argument. One that is a single token is taken at once."""
        token = self.token()
        if token.word == "null":
            return self.take("null")
        if self.peek(1) in (",", ")") and (token.kind == "number" or token.is_name()):
            return self.factor()[0]
        return self.expr()[0]

    # Statements and heads.

    def invoke(self) -> tuple[str, str]:
        """A call: its text, and the procedure's name."""
        self.take("call")
        name = self.name("a procedure").word
        self.take("(")
        sides: list[str] = []
        while self.peek() != ")" or sides:
            self.operators = 0
            sides.append(self.side())
            if self.peek() != ",":
                break
            self.take(",")
        if self.peek() != ")":
            raise self.fault("Unexpected", "`,`", "`)`")
        self.take(")")
        return f"call {name}({', '.join(sides)})", name

    def simple(self) -> tuple[str, str | None]:
        """A simple statement: its text, and the procedure that it calls."""
        word = self.peek()
        if word in ("skip", "break"):
            text, callee = self.take(word), None
        elif word == "assert":
            self.take("assert")
            text, callee = f"assert {self.whole_cond()}", None
        elif word == "call":
            text, callee = self.invoke()
        else:
            text, callee = self.assignment()
        self.take(";")
        return f"{text};", callee

    def assignment(self) -> tuple[str, str | None]:
        """What begins with a name: an assignment to a variable, to an element, or to a part of a list cell."""
        target = self.name("a statement")
        name = target.word
        if self.peek() not in ("=", "[", "."):
            raise self.fault("Unexpected", "`=`")
        mark = self.take("=", "[", ".")
        if mark == "=":
            text, callee = self.right_side(target)
            return f"{name} = {text}", callee
        if mark == "[":
            self.use(target, "array")
            index = self.whole_expr()
            self.take("]")
            self.take("=")
            return f"{name}[{index}] = {self.whole_expr()}", None
        self.use(target, "list")
        part = self.take("next", "item")
        self.take("=")
        value = self.name("a list", "list").word if part == "next" else self.whole_expr()
        return f"{name}.{part} = {value}", None

    def right_side(self, target: Token) -> tuple[str, str | None]:
        """What is assigned to a variable."""
        word = self.peek()
        if word in ("input", "null", "new"):
            self.use(target, "int" if word == "input" else "list")
            return self.take(word), None
        if word == "array":
            self.use(target, "array")
            self.take("array")
            return f"array {self.whole_expr()}", None
        if word == "call":
            return self.invoke()
        if self.is_name() and self.peek(1) == ".":
            name = self.name("a list", "list").word
            self.take(".")
            part = self.take("next", "item")
            self.use(target, "list" if part == "next" else "int")
            return f"{name}.{part}", None
        if self.is_name() and self.peek(1) == "[":
            self.use(target, "int")
            name = self.name("an array", "array").word
            self.take("[")
            index = self.whole_expr()
            self.take("]")
            return f"{name}[{index}]", None
        return self.whole_expr(), None

    def variable(self) -> Variable:
        """A name with its kind."""
        name = self.name()
        self.take(":")
        if self.peek() not in KINDS:
            raise self.fault("Unexpected", "`int`", "`array`", "`list`")
        return Variable(name.word, self.take(*KINDS), name.span)

    def guarded(self) -> str:
        """The condition of an `if` or a loop, up to the `{`."""
        self.at += 1
        self.take("(")
        text = self.whole_cond()
        self.take(")")
        self.take("{")
        return text

    def piece(self) -> Piece:
        """The whole piece."""
        word = self.peek()
        if word == "proc":
            return self.proc_head()
        if word == "var":
            self.take("var")
            name = self.variable()
            self.take(";")
            return self.made(PieceKind.VAR, name=name)
        if word in ("if", "while"):
            return self.made(PieceKind(word), self.guarded())
        if word == "else":
            self.take("else")
            self.take("{")
            return self.made(PieceKind.ELSE)
        if word == "}":
            self.take("}")
            return self.made(PieceKind.CLOSE)
        text, callee = self.simple()
        return self.made(PieceKind.SIMPLE, text, callee)

    def made(
        self,
        kind: PieceKind,
        text: str = "",
        callee: str | None = None,
        name: Variable | None = None,
        params: tuple[Variable, ...] = (),
        result: Variable | None = None,
    ) -> Piece:
        """The piece up to the present token."""
        return Piece(kind, self.tokens[0].span, self.tokens[self.at - 1].span.end, text, callee, name, params, result)

    def proc_head(self) -> Piece:
        """A procedure's head, up to its `{`."""
        self.take("proc")
        name = self.name("the name of a procedure")
        self.take("(")
        params: list[Variable] = []
        while self.peek() != ")" or params:
            params.append(self.variable())
            if self.peek() != ",":
                break
            self.take(",")
        if self.peek() != ")":
            raise self.fault("Unexpected", "`,`", "`)`")
        self.take(")")
        result = None
        if self.peek() == "->":
            self.take("->")
            result = self.variable()
        self.take("{")
        named = Variable(name.word, "proc", name.span)
        return self.made(PieceKind.PROC, name=named, params=tuple(params), result=result)


def _wrapped(part: tuple[str, int], rank: int) -> str:
    """A part's text, in parentheses where its rank is lower."""
    return part[0] if part[1] >= rank else f"({part[0]})"


def _joined(left: tuple[str, int], mark: str, right: tuple[str, int], rank: int) -> str:
    """Two parts with an operator of this rank between, which groups to the left."""
    return f"{_wrapped(left, rank)} {mark} {_wrapped(right, rank + 1)}"
