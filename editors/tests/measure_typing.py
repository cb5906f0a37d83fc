"""Measures the time from a key stroke to its diagnostics in a source of 5,000 statements.

At random places of the source a number is changed digit by digit, and a statement is typed byte by byte and taken away
again. Key strokes after which the text is a program, and those after which it is none, are told apart. The language
server's own time is that of a processor, without what its `daig serve` takes.
"""
from __future__ import annotations

import os
import statistics
import time
from dataclasses import dataclass, field
from random import Random

from daig_editor.language.text import TextReader
from daig_editor.language.tree import StmtKind
from tests.client import Client, Json
from tests.program import program
from daig_editor.language.places import SourceText

URI = "file:///typed.imp"
PLACES = 12


def loops(statements: int) -> str:
    """A main of groups of eight statements: a loop in a loop, with a check in each."""
    lines = ["proc main() {", "  var i: int;", "  var j: int;", "  var s: int;", "  var a: array;", "  a = array 100;"]
    for group in range((statements - 1) // 8):
        lines += [
            f"  i = {group % 10};",
            "  while (i < 10) {",
            "    j = 0;",
            "    while (j < 10) {",
            "      s = a[j];",
            "      j = j + 1;",
            "    }",
            "    i = i + 1;",
            "  }",
            "  assert i < 20;",
        ]
    return "\n".join([*lines, "}", ""])


def plain(statements: int) -> str:
    """A main of groups of ten statements: assignments, a choice, a read of an array, and one loop."""
    lines = ["proc main() {", "  var i: int;", "  var n: int;", "  var s: int;", "  var a: array;", "  a = array 100;"]
    for group in range((statements - 1) // 10):
        lines += [
            f"  n = {group % 7};",
            "  s = input;",
            "  if (s < n) {",
            "    s = n + 1;",
            "  } else {",
            "    n = n - 1;",
            "  }",
            "  i = 0;",
            "  while (i < 10) {",
            "    s = a[i];",
            "    i = i + 1;",
            "  }",
            "  assert i < 20;",
        ]
    return "\n".join([*lines, "}", ""])


@dataclass
class Strokes:
    """The times of key strokes: until their diagnostics, and of the language server's own work."""

    waits: list[float] = field(default_factory=list)
    own: list[float] = field(default_factory=list)

    def told(self, name: str) -> str:
        """Median and worst."""
        waits, own = sorted(it * 1000 for it in self.waits), sorted(it * 1000 for it in self.own)
        return (
            f"{len(waits)} key strokes to {name}: median {statistics.median(waits):.1f} ms, worst {waits[-1]:.1f} ms; "
            f"the language server's own work: median {statistics.median(own):.1f} ms, worst {own[-1]:.1f} ms"
        )


class Typist:
    """Types into one file, and takes the times of each key stroke."""

    def __init__(self, client: Client, text: str) -> None:
        self.client = client
        self.text = SourceText.of(text.encode(), False)
        self.version = 1
        self.good = Strokes()
        self.broken = Strokes()

    def open(self) -> float:
        """Opens the file; answers the seconds until its diagnostics are there."""
        began = time.perf_counter()
        self.client.open(URI, self.text.data.decode())
        self.client.diagnostics(1)
        return time.perf_counter() - began

    def stroke(self, start: int, end: int, text: str) -> None:
        """The bytes from `start` to `end` become a text by one key stroke."""
        self.version += 1
        change: Json = {"range": {"start": self.text.position(start), "end": self.text.position(end)}, "text": text}
        self.text = self.text.changed([change])
        began, worked = time.perf_counter(), self.client.worked()
        self.client.change(URI, self.version, [change])
        told = self.client.diagnostics(self.version)
        strokes = self.broken if any(it["severity"] == 1 and "code" not in it for it in told) else self.good
        strokes.waits.append(time.perf_counter() - began)
        strokes.own.append(self.client.worked() - worked)

    def number(self, place: int) -> None:
        """Changes the number before a place digit by digit, and back."""
        self.stroke(place, place, "1")
        self.stroke(place + 1, place + 1, "7")
        self.stroke(place + 1, place + 2, "")
        self.stroke(place, place + 1, "")

    def statement(self, place: int) -> None:
        """Types a statement byte by byte, and deletes it."""
        typed = " s = 3;"
        for k, byte in enumerate(typed):
            self.stroke(place + k, place + k, byte)
        self.stroke(place, place + len(typed), "")


def measured(domain: str, text: str, places: int) -> tuple[Strokes, Strokes, float]:
    """Types at places from the whole source; answers the strokes to a program, those to none, and the time to open."""
    read = TextReader().read(text.encode())
    simple = [it for it in read.placed() if it.stmt.kind is StmtKind.SIMPLE and it.stmt.text.startswith("i = ")]
    client = Client({"daig": program(), "domain": domain, "compareEvery": 1_000_000})
    typist = Typist(client, text)
    opened = typist.open()
    for stmt in Random(1).sample(simple, places):
        typist.number(stmt.span.end - 1)
        typist.statement(stmt.span.end)
    client.close()
    return typist.good, typist.broken, opened


def main() -> None:
    """Measures both sources by intervals."""
    for name, text in (("choices and loops", plain(5000)), ("loops in loops", loops(5000))):
        good, broken, opened = measured("interval", text, PLACES)
        print(f"{name}, 5,000 statements, intervals: opened in {opened * 1000:.0f} ms")
        print(good.told("a program"))
        print(broken.told("none"))
    print(f"load of the machine {os.getloadavg()[0]:.1f}, processors {os.cpu_count()}")


if __name__ == "__main__":
    main()
