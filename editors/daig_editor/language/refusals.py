"""What is wrong with a text that is no program, and what could be meant, at the very place."""
from __future__ import annotations

from daig_editor.language.kinds import kind_mistakes
from daig_editor.language.outline import Outline, ProcOutline
from daig_editor.language.records import dataclass, replace
from daig_editor.language.text import span_of_fault
from daig_editor.language.tokens import GREATEST_SOURCE, RESERVED, Fault
from daig_editor.language.tree import Program, Span
from daig_editor.language.words import refusal_words

# What people write who know other languages: the word at the fault, and what is to be written.
FOREIGN = {
    "for": "there is no `for`: write a `while`",
    "return": "there is no `return`: assign the result of the procedure",
    "else": "an `else` stands straight after the `}` of an `if`",
    "var": "declarations stand at the start of a procedure, before its statements",
    "int": "declare by `var NAME: int;`",
    "array": "`array LENGTH` stands alone after `NAME =`",
    "list": "declare by `var NAME: list;`",
    "input": "`input` stands alone after `NAME =`",
    "new": "`new` stands alone after `NAME =`",
    "null": "`null` is compared, assigned or handed over alone",
    "call": "a call is a statement, or stands alone after `NAME =`",
}
# The same, of words that stand where the word of the language would: with what is to stand there.
MEANT = {"and": "&&", "or": "||", "not": "!", "nil": "null", "NULL": "null", "None": "null", "nullptr": "null"}
ELSE_IF = ("elif", "elsif", "elseif")
BYTES = {b"&": "did you mean `&&`?", b"|": "did you mean `||`?"}
MARK = b"\xef\xbb\xbf"
CONDITION = "a condition is a comparison, as `i != 0`, whose left side does not begin with `(`"
# So many names that are not declared are told beside the first.
MOST_OTHERS = 50
ALONE = "an element or a part of a cell is read alone: assign it to a variable first"
OPERATORS = ("+", "-", "*", "/", "%", "<", "<=", ">", ">=", "==", "!=", "&&", "||")


@dataclass(frozen=True)
class Refusal:
    """What is said against a text: where, in which words, with what beside it, and what could stand there; `others` are
    more that is wrong, which no server has said."""

    span: Span
    words: str
    related: tuple[tuple[Span, str], ...] = ()
    meant: tuple[str, ...] = ()
    others: tuple[Refusal, ...] = ()

    @property
    def all(self) -> tuple[Refusal, ...]:
        """This one and the others."""
        return (self, *self.others)


def refusal_of_size() -> Refusal:
    """The refusal of a text that is too long to be read."""
    return Refusal(Span(0, 0), f"the text has more than {GREATEST_SOURCE:,} bytes")


def refusal_of_fault(text: bytes, fault: Fault) -> Refusal:
    """The refusal of a text that cannot be read."""
    if fault.name != "Unexpected" or not fault.wanted:
        more = _byte_hint(text, fault.span.start) if fault.name == "BadByte" else ""
        words = refusal_words(fault.name)
        return Refusal(fault.span, f"{words.removesuffix(' (BadByte)')}; {more} (BadByte)" if more else words)
    shown = fault.word if fault.word == "the end" else f"`{fault.word}`"
    words = f"{shown} is unexpected, {' or '.join(fault.wanted)} is wanted"
    hint, meant = _hint(fault)
    related: tuple[tuple[Span, str], ...] = ()
    if fault.wanted == ("`}`",):
        opened = open_brace(text, fault.span.start)
        if opened:
            related = ((opened, "this `{` is still open"),)
            hint = f"the `{{` at line {text.count(10, 0, opened.start) + 1} is still open"
    elif not hint and fault.wanted == ("`;`",):
        hint = _end_hint(text, fault.span.start)
    return Refusal(fault.span, f"{words}{f'; {hint}' if hint else ''} ({fault.name})", related, meant)


def _byte_hint(text: bytes, place: int) -> str:
    """What could be meant by a byte that begins no token."""
    if text.startswith(MARK, place):
        return "it is a byte order mark: save the text without one"
    return BYTES.get(text[place : place + 1], "")


def _end_hint(text: bytes, place: int) -> str:
    """Where a `;` is missing, if that is on an earlier line."""
    ended = [it.span.end for it in Outline(text[:place]).code]
    line = text.count(10, 0, ended[-1]) + 1 if ended else 0
    return f"line {line} ends without one" if ended and b"\n" in text[ended[-1] : place] else ""


def _hint(fault: Fault) -> tuple[str, tuple[str, ...]]:
    """What could be meant, in words, and what could stand in the place of the word."""
    word, before, wanted = fault.word, fault.before, fault.wanted
    if any(it.startswith(("a name", "the name")) for it in wanted) and word in RESERVED:
        return f"`{word}` is a word of the language", ()
    if "`proc`" in wanted:
        return ("a program is made of procedures: `proc main() { .. }`", ()) if word != "}" else ("", ())
    if "`;`" in wanted and before == "]" and word in OPERATORS:
        return ALONE, ()
    if "`;`" in wanted and before in FOREIGN and word in OPERATORS:
        return FOREIGN[before], ()
    if "a comparison" in wanted and word == "=":
        return "did you mean `==`?", ("==",)
    if "a comparison" in wanted and word == ")":
        return CONDITION, ()
    if word in MEANT and wanted != ("`=`",):
        return f"did you mean `{MEANT[word]}`?", (MEANT[word],)
    if "`;`" in wanted and word == "(":
        return f"did you mean `call {before}(..)`?", ()
    if wanted == ("`=`",) and word == "==":
        return "did you mean `=`?", ("=",)
    if wanted == ("`=`",) and before in FOREIGN and before not in RESERVED:
        return FOREIGN[before], ()
    if wanted == ("`=`",) and word == "(":
        return _called(before), ()
    if wanted == ("`=`",) and word in ("+", "-", "*", "/"):
        return f"write `{before} = {before} {word} ..;`", ()
    if word == "if" and before == "else":
        return "write `else { if (..) { .. } }`", ()
    if word in ("[", ".") and wanted != ("`=`",):
        return ALONE, ()
    if word == "len":
        return f"write `len {before}`" if before != "." else "write `len NAME`", ()
    if word == "/" or (before == "/" and word == "*"):
        return "a comment begins with `//`", ()
    if word in FOREIGN:
        return FOREIGN[word], ()
    return "", ()


def _called(word: str) -> str:
    """What could be meant by a word with a `(` after it, at the start of a statement."""
    from difflib import get_close_matches  # wanted only where something is wrong

    if word in ELSE_IF:
        return "write `else { if (..) { .. } }`"
    similar = get_close_matches(word, ("while",), 1, 0.7)
    return f"did you mean `{similar[0]} (..)`?" if similar else f"did you mean `call {word}(..)`?"


def open_brace(text: bytes, end: int) -> Span | None:
    """The `{` whose `}` is likely missing before a place: by the indentation of a `}`, else the innermost open one."""
    opened: list[Span] = []
    doubtful: Span | None = None
    for token in Outline(text[:end]).code:
        if token.word == "{":
            opened.append(token.span)
        elif token.word == "}" and opened:
            last = opened.pop()
            if doubtful is None and _begins_line(text, token.span.start) < _indent(text, last.start):
                doubtful = last
    return doubtful or (opened[-1] if opened else None)


def _indent(text: bytes, place: int) -> int:
    """How many spaces the line of a place begins with."""
    start = text.rfind(b"\n", 0, place) + 1
    return len(text[start:place]) - len(text[start:place].lstrip(b" \t"))


def _begins_line(text: bytes, place: int) -> int:
    """The indentation of a token that is the first of its line; a great number for any other."""
    start = text.rfind(b"\n", 0, place) + 1
    return place - start if not text[start:place].strip() else len(text)


# ---------------------------------------------------------------------------------------------------------------------
# Programs with a fault


def refusal_of_check(text: bytes, program: Program, name: str, at: int, proc_name: str) -> Refusal:
    """The refusal of a program: `at` is the number of a statement, counted from 1, or 0; `proc_name` a procedure."""
    outline = Outline(text)
    if not at:
        return _of_procedure(outline, name, proc_name)
    placed = next((it for number, it in enumerate(program.placed(), 1) if number == at), None)
    if placed is None:
        return Refusal(Span(0, 0), refusal_words(name))
    head, proc = placed.head, outline.proc_at(placed.span.start)
    found = _of_statement(outline, proc, head, name) if proc else None
    if found is None:
        return Refusal(head, refusal_words(name))
    return replace(found, others=_other_names(outline, found.span)) if name == "UnknownName" else found


def _other_names(outline: Outline, first: Span) -> tuple[Refusal, ...]:
    """The other names that are not declared, each use of them."""
    found: list[Refusal] = []
    for it in outline.occurrences:
        proc = outline.proc_at(it.token.span.start)
        if it.declared is None and it.token.span != first and proc and len(found) < MOST_OTHERS:
            found.append(_unknown(outline, proc, it.token.word, it.token.span, it.calls))
    return tuple(found)


def refusal_of_reply(text: bytes, program: Program | None, fault: Fault | None, reply: dict[str, object]) -> Refusal:
    """The refusal that a server's reply says, in the words of the text's own fault where they agree."""
    name, at = str(reply.get("name", "")), int(str(reply.get("at", 0)))
    if reply.get("refused") == 7:
        span = span_of_fault(text, name, at)
        if fault and (fault.name, fault.span) == (name, span):
            return refusal_of_fault(text, fault)
        return Refusal(span, refusal_words(name))
    if program is None:
        return Refusal(Span(0, 0), refusal_words(name))
    return refusal_of_check(text, program, name, at, str(reply.get("proc", "")))


def _of_procedure(outline: Outline, name: str, proc_name: str) -> Refusal:
    """A fault of a procedure: at the name of the variable or the procedure that it is about."""
    named = [it for it in outline.procs if it.name.name == proc_name]
    if not named:
        return Refusal(Span(0, 0), refusal_words(name))
    if name != "Redeclared":
        return Refusal(named[-1].name.span, refusal_words(name))
    if len(named) > 1:
        return _declared_twice(named[1].name.span, named[0].name.span, proc_name)
    seen: dict[str, Span] = {}
    for variable in (it.variable for it in named[0].variables):
        if variable.name in seen:
            return _declared_twice(variable.span, seen[variable.name], variable.name)
        seen[variable.name] = variable.span
    return Refusal(named[0].name.span, refusal_words(name))


def _declared_twice(span: Span, first: Span, name: str) -> Refusal:
    """The second declaration of a name, with the first one beside it."""
    return Refusal(span, f"`{name}` is declared twice (Redeclared)", ((first, "declared here first"),))


def _of_statement(outline: Outline, proc: ProcOutline, head: Span, name: str) -> Refusal | None:
    """A fault of a statement, at the very name where it is about one."""
    if name in ("UnknownName", "CallsLater"):
        return _of_names(outline, proc, head)
    if name in ("WrongKind", "WrongArguments"):
        mistakes = kind_mistakes(outline.text[head.start : head.end], head.start, proc, outline)
        if mistakes:
            return Refusal(mistakes[0].span, f"{mistakes[0].words} ({name})", _callee(outline, head))
    return None


def _callee(outline: Outline, head: Span) -> tuple[tuple[Span, str], ...]:
    """The declaration of the procedure that a statement calls."""
    for it in outline.occurrences:
        if it.calls and it.declared and head.start <= it.token.span.start < head.end:
            return ((it.declared.variable.span, f"`{it.token.word}` is declared here"),)
    return ()


def _of_names(outline: Outline, proc: ProcOutline, head: Span) -> Refusal | None:
    """The first name of a statement that is not declared, or is called too early."""
    for it in outline.occurrences:
        if not head.start <= it.token.span.start < head.end:
            continue
        word, span = it.token.word, it.token.span
        if it.declared is None:
            return _unknown(outline, proc, word, span, it.calls)
        if it.calls and it.declared.variable.span.start >= proc.name.span.start:
            itself = it.declared.variable.span == proc.name.span
            words = "a procedure does not call itself" if itself else f"`{word}` stands later"
            more = "a procedure calls only procedures that stand before it"
            return Refusal(span, f"{words}; {more} (CallsLater)", ((it.declared.variable.span, "declared here"),))
    return None


def _unknown(outline: Outline, proc: ProcOutline, word: str, span: Span, calls: bool) -> Refusal:
    """A name that is not declared, and the ones that look like it."""
    if calls:
        names = [it.name.name for it in outline.procs if it.name.span.start < proc.name.span.start]
    else:
        names = list(proc.named)
    from difflib import get_close_matches  # wanted only where something is wrong

    meant = tuple(get_close_matches(word, names, 3, 0.6)) or ((MEANT[word],) if word in MEANT else ())
    hint = f"; did you mean {' or '.join(f'`{it}`' for it in meant)}?" if meant else ""
    what = "procedure" if calls else "variable"
    return Refusal(span, f"no {what} `{word}` is declared{hint} (UnknownName)", (), meant)
