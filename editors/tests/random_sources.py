"""Makes random sources and random changes of texts, for the tests. All is told by the generator that is handed in."""
from __future__ import annotations

from dataclasses import dataclass, field
from random import Random

KINDS = ("int", "array", "list")


@dataclass
class MadeProc:
    """A procedure that a later one may call: its name, its parameters' kinds, its result's kind."""

    name: str
    params: list[str]
    result: str | None


@dataclass
class Scope:
    """The variables of a procedure by their kinds, and the procedures before it."""

    variables: dict[str, list[str]]
    callees: list[MadeProc]
    loops: int = 0


@dataclass
class SourceMaker:
    """Makes sources; `size` is about how many statements each procedure gets."""

    random: Random
    size: int = 12
    made: list[MadeProc] = field(default_factory=list)

    def source(self, procs: int) -> str:
        """A program of so many procedures before main."""
        self.made = []
        texts = []
        for index in range(procs):
            params = [self.random.choice(KINDS) for _ in range(self.random.randrange(3))]
            result = self.random.choice([None, *KINDS])
            texts.append(self.proc(MadeProc(f"f{index}", params, result)))
        texts.append(self.proc(MadeProc("main", [], None)))
        return "\n".join(texts)

    def proc(self, head: MadeProc) -> str:
        """A procedure, which later ones may call."""
        scope = Scope({kind: [f"{kind[0]}{k}" for k in range(3)] for kind in KINDS}, list(self.made))
        params = [f"q{k}: {kind}" for k, kind in enumerate(head.params)]
        for k, kind in enumerate(head.params):
            scope.variables[kind].append(f"q{k}")
        result = f" -> r: {head.result}" if head.result else ""
        if head.result:
            scope.variables[head.result].append("r")
        lines = [f"proc {head.name}({', '.join(params)}){result} {{"]
        lines += [f"  var {name}: {kind};" for kind in KINDS for name in scope.variables[kind][:3]]
        lines += self.block(scope, self.size, 1)
        self.made.append(head)
        return "\n".join([*lines, "}", ""])

    def block(self, scope: Scope, size: int, nesting: int) -> list[str]:
        """The lines of about so many statements."""
        lines: list[str] = []
        left = size
        while left > 0:
            inner = min(left - 1, self.random.randrange(1, 5))
            if nesting < 5 and inner > 0 and self.random.random() < 0.3:
                lines += self.compound(scope, inner, nesting)
                left -= inner + 1
            else:
                lines.append("  " * nesting + self.simple(scope))
                left -= 1
        return lines

    def compound(self, scope: Scope, size: int, nesting: int) -> list[str]:
        """The lines of an `if` or of a loop that counts."""
        space = "  " * nesting
        if self.random.random() < 0.5:
            scope.loops += 1
            inner = self.block(scope, size, nesting + 1)
            scope.loops -= 1
            return [f"{space}while ({self.cond(scope)}) {{", *inner, f"{space}}}"]
        lines = [f"{space}if ({self.cond(scope)}) {{", *self.block(scope, size, nesting + 1)]
        if self.random.random() < 0.5:
            lines += [f"{space}}} else {{", *self.block(scope, 1, nesting + 1)]
        return [*lines, f"{space}}}"]

    def name(self, scope: Scope, kind: str) -> str:
        """A variable of a kind."""
        return self.random.choice(scope.variables[kind])

    def simple(self, scope: Scope) -> str:
        """A simple statement."""
        x, a, p, q = (self.name(scope, it) for it in ("int", "array", "list", "list"))
        e, f = self.expr(scope, 2), self.expr(scope, 1)
        forms = [
            f"{x} = {e};", f"{x} = {e};", f"{x} = {e};", f"{x} = input;", f"{x} = {a}[{f}];", f"{a}[{f}] = {e};",
            f"{a} = array {f};", f"{p} = {q};", f"{p} = null;", f"{p} = new;", f"{p} = {q}.next;",
            f"{p}.next = {q};", f"{p}.item = {e};", f"{x} = {p}.item;", f"assert {self.cond(scope)};", "skip;",
        ]  # fmt: skip
        if scope.loops:
            forms.append("break;")
        if scope.callees:
            forms += [self.call(scope), self.call(scope)]
        return self.random.choice(forms)

    def call(self, scope: Scope) -> str:
        """A call of a procedure in front."""
        callee = self.random.choice(scope.callees)
        sides = [self.expr(scope, 1) if it == "int" else self.name(scope, it) for it in callee.params]
        call = f"call {callee.name}({', '.join(sides)});"
        if callee.result and self.random.random() < 0.7:
            return f"{self.name(scope, callee.result)} = {call}"
        return call

    def expr(self, scope: Scope, depth: int) -> str:
        """An int expression."""
        pick = self.random.randrange(8 if depth else 4)
        if pick < 2:
            return self.name(scope, "int")
        if pick == 2:
            return str(self.random.choice([0, 1, 2, 7, 10, 100]))
        if pick == 3:
            return f"len {self.name(scope, 'array')}"
        left, right = self.expr(scope, depth - 1), self.expr(scope, depth - 1)
        if pick == 4:
            return f"-{left}" if left[0].isalnum() else f"-({left})"
        if pick == 5:
            return f"({left}) {self.random.choice('*/%')} ({right})"
        return f"{left} {self.random.choice('+-')} {right}"

    def cond(self, scope: Scope) -> str:
        """A condition."""
        pick = self.random.randrange(6)
        if pick == 0:
            return f"{self.name(scope, 'list')} {self.random.choice(['==', '!='])} null"
        if pick == 1:
            return f"!({self.compare(scope)})"
        if pick == 2:
            return f"{self.compare(scope)} {self.random.choice(['&&', '||'])} ({self.compare(scope)})"
        return self.compare(scope)

    def compare(self, scope: Scope) -> str:
        """A comparison of two ints."""
        mark = self.random.choice(["<", "<=", ">", ">=", "==", "!="])
        return f"{self.name(scope, 'int')} {mark} {self.expr(scope, 1)}"


def slow_source(groups: int) -> str:
    """A program that takes octagons long: so many groups of three loops in each other over sixteen variables."""
    names = [f"x{k}" for k in range(16)]
    lines = ["proc main() {", *(f"  var {it}: int;" for it in names)]
    for group in range(groups):
        a, b, c, d = (names[(group + k) % 16] for k in range(4))
        lines += [
            f"  {a} = 0;",
            f"  while ({a} < 10) {{",
            f"    {b} = {a};",
            f"    while ({b} < 20) {{",
            f"      {c} = {b};",
            f"      while ({c} < {d}) {{",
            f"        {c} = {c} + 1;",
            f"        {d} = {d} - 1;",
            "      }",
            f"      {b} = {b} + 1;",
            "    }",
            f"    {a} = {a} + 1;",
            "  }",
        ]
    return "\n".join([*lines, "  assert x0 < 0;", "}", ""])


# ---------------------------------------------------------------------------------------------------------------------
# Changes


@dataclass(frozen=True)
class TextChange:
    """The bytes from `start` to `end` become `text`."""

    start: int
    end: int
    text: str

    def of(self, source: str) -> str:
        """The text after it."""
        return source[: self.start] + self.text + source[self.end :]


@dataclass
class ChangeMaker:
    """Makes random changes of a text: of lines, blocks, names and procedures, and of single bytes."""

    random: Random
    maker: SourceMaker

    def change(self, source: str) -> TextChange:
        """A change of a source. Many of them leave a program, some do not."""
        lines = source.splitlines(keepends=True)
        index = self.random.randrange(len(lines))
        start = sum(len(it) for it in lines[:index])
        line = lines[index]
        pick = self.random.random()
        if pick < 0.35:
            return TextChange(start, start, f"  {self.statement()}\n")
        if pick < 0.55 and line.strip().endswith(";"):
            return TextChange(start, start + len(line), f"  {self.statement()}\n")
        if pick < 0.70 and line.strip().endswith(";") and not line.strip().startswith("var"):
            return TextChange(start, start + len(line), "")
        if pick < 0.76 and "(" in line and line.strip().startswith(("if", "while")):
            first = start + line.index("(") + 1
            return TextChange(first, start + line.rindex(")"), self.maker.cond(self.scope()))
        if pick < 0.80:
            return TextChange(start, start, f"  // {self.random.choice(['a note', 'é; }', '{{'])}\n")
        if pick < 0.84:
            block = "".join(f"{it}\n" for it in self.maker.compound(self.scope(), 3, 1))
            return TextChange(start, start, block)
        if pick < 0.86:
            return TextChange(start, start, f"  var x{self.random.randrange(9)}: {self.random.choice(KINDS)};\n")
        if pick < 0.88:
            two = lines[index : index + 2]
            return TextChange(start, start + len("".join(two)), "".join(reversed(two)))
        if pick < 0.90 and line.strip().endswith(";"):
            return TextChange(start, start + len(line), f"  while ({self.maker.cond(self.scope())}) {{\n{line}  }}\n")
        if pick < 0.92:
            return self.renamed(source, start)
        if pick < 0.94:
            return self.new_proc(source)
        if pick < 0.97:
            place = self.random.randrange(len(source))
            return TextChange(place, min(len(source), place + self.random.randrange(3)), "")
        place = self.random.randrange(len(source))
        return TextChange(place, place, self.random.choice(list("xi0; {}()=+<-@&")))

    def renamed(self, source: str, start: int) -> TextChange:
        """A variable that becomes another one in some lines from a place on."""
        end = min(len(source), start + self.random.randrange(300))
        old, new = self.random.sample(["i0", "i1", "i2"], 2)
        return TextChange(start, end, source[start:end].replace(old, new))

    def scope(self) -> Scope:
        """The variables that each procedure has."""
        return Scope({kind: [f"{kind[0]}{k}" for k in range(3)] for kind in KINDS}, self.maker.made[:-1])

    def statement(self) -> str:
        """A simple statement."""
        return self.maker.simple(self.scope())

    def new_proc(self, source: str) -> TextChange:
        """A procedure that comes before another one, or one that goes."""
        starts = [0, *(k + 1 for k in range(len(source)) if source.startswith("\nproc ", k))]
        index = self.random.randrange(len(starts))
        if self.random.random() < 0.5 and index + 1 < len(starts):
            return TextChange(starts[index], starts[index + 1], "")
        made, self.maker.made = self.maker.made, []
        head = MadeProc(f"g{self.random.randrange(1000)}", ["int"], "int")
        text = self.maker.proc(head)
        self.maker.made = made
        return TextChange(starts[index], starts[index], text + "\n")
