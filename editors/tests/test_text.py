"""Compares the reader of texts with the server: the same programs, the same numbers, the same first faults.

Each text is also read from nothing: what is shared with the text before it stands at the same places.
"""
from __future__ import annotations

import json
import subprocess
import tempfile
from pathlib import Path
from random import Random

from daig_editor.language.tokens import Fault
from daig_editor.language.text import TextReader, span_of_fault
from daig_editor.language.tree import Program, listing_text, number_from_one, program_text
from tests.program import changes, program
from tests.random_sources import ChangeMaker, SourceMaker

SCRIPT = b'{"do":"program"}\n{"do":"listing"}\n'


def replies(daig: str, folder: Path, text: bytes) -> list[dict[str, object]]:
    """What the server says of a text."""
    file = folder / "text.imp"
    file.write_bytes(text)
    done = subprocess.run([daig, "serve", str(file)], input=SCRIPT, capture_output=True, check=False)
    return [json.loads(it) for it in done.stdout.splitlines()]


def compare(reader: TextReader, text: bytes, said: list[dict[str, object]]) -> str:
    """What came of a text: a word for the count. Fails where the reader differs."""
    try:
        program, fault = reader.read(text), None
    except Fault as found:
        program, fault = None, found
    first = said[0]
    if first.get("refused") == 7:
        assert fault is not None, f"the server refuses {text!r}: {first}"
        span = span_of_fault(text, str(first["name"]), int(str(first["at"])))
        assert (fault.name, fault.span) == (first["name"], span), f"{fault} and {first} of {text!r}"
        return str(first["name"])
    assert program is not None, f"the server reads {text!r}, but: {fault}"
    if "refused" in first:
        return "check"
    assert places(program) == places(TextReader().read(text)), f"what is shared stands elsewhere in {text!r}"
    number_from_one(program)
    assert first["program"] == program_text(program), text
    assert said[1]["listing"] == listing_text(program), text
    return "program"


def places(program: Program) -> list[object]:
    """All places of a program."""
    told: list[object] = []
    for proc in program.procs:
        told += [proc.span, proc.name_span, *proc.variables()]
        told += [(it.span, it.head, it.stmt.key) for it in proc.placed()]
    return told


def deep_texts() -> list[str]:
    """Texts at the limits of nesting and of operators."""

    def main(body: str) -> str:
        """A main with these statements."""
        return f"proc main() {{ var x: int; {body} }}"

    texts = [main("if (x < 1) {" * n + "}" * n) for n in (32, 33, 34)]
    texts += [main("if (x < 1) { } else {" * n + "}" * n) for n in (32, 33)]
    texts += [main(f"x = {'+'.join(['x'] * n)};") for n in (33, 34)]
    texts += [main(f"x = {'(' * n}x{')' * n};") for n in (32, 33)]
    texts += [main(f"x = {'-' * n}x;") for n in (32, 33)]
    texts += [main(f"assert {'!(' * n}x < 1{')' * n};") for n in (15, 16, 17)]
    texts += [main(f"x = {2**63 - n};") for n in (0, 1)] + [main(f"x = {'y' * n};") for n in (32, 33)]
    texts += ["", "// no program", "proc main() { } }", "proc main() { else { } }", "proc main() { } proc", "\xe9"]
    texts += [main(it) for it in ("x = 1; var y: int;", "x = ", "if (x < 1) { } else", "x = 1 ;;", "// x\r x = 1;")]
    return texts


def test_texts() -> None:
    """Runs over deep texts, sources, and sources with one to three changes."""
    daig, many, random = program(), max(30, changes() // 4), Random(1)
    counts: dict[str, int] = {}
    reader = TextReader()
    with tempfile.TemporaryDirectory() as folder:
        texts = deep_texts()
        for _ in range(many):
            maker = SourceMaker(random)
            text = maker.source(random.randrange(4))
            texts.append(text)
            for _ in range(random.randrange(4)):
                text = ChangeMaker(random, maker).change(text).of(text)
                texts.append(text)
        for text in texts:
            data = text.encode("latin-1")
            word = compare(reader, data, replies(daig, Path(folder), data))
            counts[word] = counts.get(word, 0) + 1
    told = ", ".join(f"{count} {word}" for word, count in sorted(counts.items()))
    print(f"test_text: {len(texts)} texts read as the server reads them: {told}")
