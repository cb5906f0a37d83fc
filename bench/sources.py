"""The programs that are measured, each of so many statements."""
from __future__ import annotations


def straight(count: int) -> str:
    """A main of `count` assignments over a few variables."""
    lines = ["proc main() {", "  var a: int;", "  var b: int;", "  var c: int;"]
    for i in range(count):
        lines.append(("  a = a + 1;", "  b = a;", "  c = b - a;", "  a = 5;")[i % 4])
    return "\n".join([*lines, "}", ""])


def loops(count: int) -> str:
    """A main of nested loops, `count` statements in all: groups of a while in a while with three assignments."""
    lines = ["proc main() {", "  var i: int;", "  var j: int;", "  var s: int;"]
    for _ in range(count // 8):
        lines += [
            "  i = 0;",
            "  while (i < 10) {",
            "    j = 0;",
            "    while (j < 10) {",
            "      s = i;",
            "      j = j + 1;",
            "    }",
            "    i = i + 1;",
            "  }",
            "  s = 0;",
        ]
    return "\n".join([*lines, "}", ""])


def checks(count: int) -> str:
    """A main of `count` statements, each third with a check."""
    lines = ["proc main() {", "  var a: array;", "  var i: int;", "  var s: int;", "  a = array 10;"]
    for i in range((count - 1) // 3):
        lines += [f"  i = {i % 12};", "  s = i;", "  s = a[i];"]
    return "\n".join([*lines, "}", ""])


def comments(size: int) -> str:
    """A source of about so many bytes with few statements: long comments."""
    comment = "  // " + "x" * 94 + "\n"
    return "proc main() {\n  var a: int;\n" + comment * (size // 100) + "  a = 1;\n}\n"


def slots(count: int, many: int, from_number: int = 0) -> str:
    """A main of loops over `many` ints, `count` statements in all: each loop counts one int and moves another after it.
    The constants begin at a number: from 2^25 on octagons need wide entries."""
    names = [f"x{k}" for k in range(many)]
    lines = ["proc main() {", *(f"  var {it}: int;" for it in names)]
    for i in range(count // 8):
        a, b, c = (names[(i + k) % many] for k in range(3))
        lines += [
            f"  {a} = 0;",
            f"  {b} = input;",
            f"  while ({a} < {b}) {{",
            f"    {a} = {a} + 1;",
            f"    {c} = {a};",
            f"    {c} = {c} + 2;",
            "  }",
            f"  {b} = {from_number + 7};",
            f"  {c} = {from_number + 3};",
        ]
    return "\n".join([*lines, "}", ""])


def five(count: int) -> str:
    return slots(count, 5)


def sixteen(count: int) -> str:
    return slots(count, 16)


def constants(many: int) -> str:
    """A main whose loop moves 15 ints on by an unknown 0 or 1, and so many constants, which are thresholds of the loop."""
    names = [f"x{k}" for k in range(15)]
    below = " && ".join(f"{it} < 90" for it in names)
    lines = ["proc main() {", "  var y: int;", *(f"  var {it}: int;" for it in names)]
    lines += ["  y = input;", "  if (y < 0) { y = 0; }", "  if (1 < y) { y = 1; }"]
    lines += [f"  while ({below}) {{", *(f"    {it} = {it} + y;" for it in names), "  }"]
    for first in range(2, 2 + many, 33):
        lines.append(f"  y = {' + '.join(str(first + k) for k in range(33))};")
    return "\n".join([*lines, "}", ""])


def lists(count: int) -> str:
    """A main of loops that make and walk a list, `count` statements in all."""
    lines = ["proc main() {", "  var n: int;", "  var p: list;", "  var q: list;"]
    for _ in range(count // 8):
        lines += [
            "  n = 0;",
            "  p = null;",
            "  while (n < 10) {",
            "    q = new;",
            "    q.next = p;",
            "    p = q;",
            "    n = n + 1;",
            "  }",
            "  q = p;",
        ]
    return "\n".join([*lines, "}", ""])


def leaf() -> list[str]:
    """A procedure of twenty statements, ten of them with checks."""
    lines = ["proc leaf(n: int) -> a: int {", "  var b: int;"]
    for i in range(10):
        lines += [f"  a = n + {i};", f"  assert a > b - {1_000 + i};"]
    return [*lines, "}"]


def called(name: str, callee: str, times: int) -> list[str]:
    """A procedure that calls another one so many times."""
    return [f"proc {name}(n: int) -> a: int {{", *(f"  a = call {callee}({i % 50});" for i in range(times)), "}"]


def main_calls(callee: str, times: int) -> list[str]:
    """A main that calls a procedure so many times."""
    return ["proc main() {", "  var a: int;", *(f"  a = call {callee}({i % 50});" for i in range(times)), "}", ""]


def chains(count: int) -> str:
    """A leaf that main calls so many times."""
    return "\n".join([*leaf(), *main_calls("leaf", count)])


def wide(count: int) -> str:
    """A leaf under so many chains: ten calls in a procedure that another one calls ten times, which main calls."""
    return "\n".join([*leaf(), *called("inner", "leaf", 10), *called("outer", "inner", 10), *main_calls("outer", count // 100)])


def graphs(count: int) -> str:
    """A leaf that main calls so many times, each time under 64 graphs of list segments: six links are null or a cell."""
    links = [f"p{k}" for k in range(6)]
    lines = [f"proc leaf({', '.join(f'{it}: list' for it in links)}, n: int) -> a: int {{", "  a = n + 1;", "}"]
    lines += ["proc main() {", "  var a: int;", *(f"  var {it}: list;" for it in links)]
    for it in links:
        lines += ["  a = input;", f"  if (a < 5) {{ {it} = new; }} else {{ {it} = null; }}"]
    lines += [f"  a = call leaf({', '.join(links)}, {i % 50});" for i in range(count)]
    return "\n".join([*lines, "}", ""])


def groups(count: int) -> list[str]:
    """The lines of `count` statements in groups of nine: a loop that counts, two assignments, and a loop that makes a list."""
    lines = [*(f"  var {it}: int;" for it in ("a", "b", "c", "n")), "  var p: list;", "  var q: list;"]
    for i in range(count // 9):
        lines += [
            f"  a = {i % 7};",
            f"  while (a < {i % 50 + 10}) {{",
            "    a = a + 1;",
            "    b = a;",
            "  }",
            "  p = null;",
            "  q = new;",
            "  q.next = p;",
            "  p = q;",
            "  c = b + 2;",
        ]
    return lines


def mixed(count: int) -> str:
    """A main of `count` statements in those groups."""
    return "\n".join(["proc main() {", *groups(count), "}", ""])


PARTS, PART = 18, 54


def parts(_: int) -> str:
    """Procedures of 54 statements in those groups, and a main of 27 that calls each once: 999 statements in all."""
    lines: list[str] = []
    for i in range(PARTS):
        lines += [f"proc part{i}() {{", *groups(PART), "}"]
    main = groups(9)
    return "\n".join([*lines, "proc main() {", *main, *(f"  call part{i}();" for i in range(PARTS)), "}", ""])


def thousand(_: int) -> str:
    return straight(1_000)
