"""Random changes of texts through the language server, each compared with a new `daig serve` of the same text.

After each change the server's program, the diagnostics and the place of a refusal are those that a new server of the
same text gives; where the text is no program, the server keeps the last one.
"""
from __future__ import annotations

import json
import subprocess
import tempfile
from dataclasses import dataclass, field
from pathlib import Path
from random import Random

from daig_editor.language.checks import SLIGHT, rule_of
from daig_editor.language.places import SourceText
from daig_editor.language.text import TextReader, span_of_fault
from daig_editor.language.tree import number_from_one
from daig_editor.server.verdicts import Verdict, told
from tests.client import Client, Json
from tests.program import changes, program
from tests.random_sources import ChangeMaker, SourceMaker, TextChange

SCRIPT = b'{"do":"program"}\n{"do":"faults"}\n'
SEVERITIES = {"fails": 1, "may": 2, "dead": 4}
CHANGES_OF_ONE_SOURCE = 50


@dataclass
class Truth:
    """What a new server says of a text."""

    program: str | None
    faults: list[Json]
    refusal: Json | None


def truth(daig: str, domain: str, folder: Path, text: bytes) -> Truth:
    """Asks a new server."""
    file = folder / "text.imp"
    file.write_bytes(text)
    words = [daig, "serve", "--domain", domain, str(file)]
    done = subprocess.run(words, input=SCRIPT, capture_output=True, check=False)
    said = [json.loads(it) for it in done.stdout.splitlines()]
    if "program" in said[0]:
        return Truth(said[0]["program"], said[1]["faults"], None)
    return Truth(None, [], said[0])


@dataclass
class Tally:
    """What came of the changes."""

    changes: int = 0
    programs: int = 0
    counts: dict[str, int] = field(default_factory=dict)

    def add(self, counts: dict[str, int]) -> None:
        """Adds what a document did."""
        for name, count in counts.items():
            self.counts[name] = self.counts.get(name, 0) + count


class Session:
    """One source that is changed again and again."""

    def __init__(self, client: Client, daig: str, domain: str, folder: Path, random: Random, name: str) -> None:
        self.client, self.daig, self.domain, self.folder = client, daig, domain, folder
        self.random = random
        self.maker = SourceMaker(random, random.choice([4, 12, 40]))
        self.changer = ChangeMaker(random, self.maker)
        self.uri = f"file:///{name}.imp"
        self.text = self.maker.source(random.randrange(4))
        self.good_text, self.good_program = self.text, ""
        self.version = 1
        self.reader = TextReader()

    def run(self, many: int, tally: Tally) -> None:
        """Opens the source and makes so many changes."""
        self.client.open(self.uri, self.text)
        self.compare(tally)
        for _ in range(many):
            self.version += 1
            self.client.change(self.uri, self.version, self.changes())
            self.compare(tally)
        result = self.client.command("daig.serverProgram", self.uri)
        assert isinstance(result, dict)
        tally.add(result["counts"])
        self.client.notify("textDocument/didClose", {"textDocument": {"uri": self.uri}})

    def changes(self) -> list[Json]:
        """One to three changes, or the way back to the last text that was a program."""
        if self.text != self.good_text and self.random.random() < 0.5:
            back, self.text = self.good_text, self.good_text
            return [{"text": back}]
        made = []
        for _ in range(self.random.choice([1, 1, 1, 2, 3])):
            change = self.changer.change(self.text)
            made.append(self.ranged(change))
            self.text = change.of(self.text)
        return made

    def ranged(self, change: TextChange) -> Json:
        """A change of the present text, as a client sends it."""
        source = SourceText.of(self.text.encode(), False)
        start, end = (len(self.text[:it].encode()) for it in (change.start, change.end))
        return {"range": {"start": source.position(start), "end": source.position(end)}, "text": change.text}

    def compare(self, tally: Tally) -> None:
        """Compares what the language server says of the present text with what a new server says."""
        shown = self.client.diagnostics(self.version)
        data = self.text.encode()
        true = truth(self.daig, self.domain, self.folder, data)
        tally.changes += 1
        if true.program is not None:
            tally.programs += 1
            self.good_text, self.good_program = self.text, true.program
            self.compare_faults(shown, true.faults, data)
        else:
            self.compare_refusal(shown, true.refusal or {}, data)
        result = self.client.command("daig.serverProgram", self.uri)
        assert isinstance(result, dict)
        assert result["program"] == self.good_program, f"{result['program']}\nis not\n{self.good_program}"

    def compare_faults(self, shown: list[Json], faults: list[Json], data: bytes) -> None:
        """The diagnostics are those of new verdicts, at the statements of the text."""
        program = self.reader.read(data)
        number_from_one(program)
        heads = {it.stmt.number: it.head for it in program.placed()}
        source = SourceText.of(data, False)
        verdicts = told(Verdict(it["id"], rule_of(it["fault"]), it["verdict"]) for it in faults)
        wanted = [(str(source.range(heads[number])), rule, SEVERITIES[said]) for number, rule, said in verdicts]
        # A slight one is information, or a warning where the last change made it.
        has = [
            (str(it["range"]), it["code"], 2 if it["severity"] == 3 and it["code"] == SLIGHT else it["severity"])
            for it in shown
            if it.get("code") != "budget"
        ]
        assert sorted(has) == sorted(wanted), f"{has}\nis not\n{wanted}\n{self.text}"

    def compare_refusal(self, told: list[Json], refusal: Json, data: bytes) -> None:
        """There is one error, which stands where a new server's refusal points to; of unknown names there may be more."""
        errors = [it for it in told if it["severity"] == 1 and "code" not in it]
        name, at = str(refusal["name"]), int(str(refusal["at"]))
        assert len(errors) == 1 or errors and name == "UnknownName", f"{errors} for {refusal}"
        assert all(f"({name})" in str(it["message"]) for it in errors), f"{errors} for {refusal}"
        source = SourceText.of(data, False)
        if refusal["refused"] == 7:
            span = span_of_fault(data, name, at)
            assert errors[0]["range"] == source.range(span), f"{errors} for {refusal}"
        elif at:
            program = self.reader.read(data)
            number_from_one(program)
            head = next(it.head for it in program.placed() if it.stmt.number == at)
            places = [tuple(source.place(it["range"][end]) for end in ("start", "end")) for it in errors]
            assert any(head.start <= start < end <= head.end for start, end in places), f"{errors} for {refusal}"


def compare_changes(seed: int, domain: str) -> None:
    """Changes one source after the other."""
    daig, many, random, tally = program(), changes(), Random(seed), Tally()
    client = Client({"daig": daig, "domain": domain, "compareEvery": 1})
    with tempfile.TemporaryDirectory() as folder:
        while tally.changes < many:
            name = f"source{tally.changes}"
            Session(client, daig, domain, Path(folder), random, name).run(CHANGES_OF_ONE_SOURCE, tally)
    client.close()
    bad = [it for it in client.log if "given up" in it or "cannot read" in it]
    assert not bad and not client.shown, f"{bad[:3]} {client.shown[:3]}"
    told = ", ".join(f"{count} {name}" for name, count in tally.counts.items())
    print(f"test_protocol: {tally.changes} texts, {tally.programs} of them programs, as a new server has them: {told}")
    refused = [it for it in client.log if "is refused" in it]
    print(f"test_protocol: {len(refused)} plans of edits were refused and loaded anew, such as: {refused[:2]}")


def test_changes_by_intervals() -> None:
    """Random changes, by intervals."""
    compare_changes(1, "interval")


def test_changes_by_octagons_and_lists() -> None:
    """Random changes, by octagons and list segments."""
    compare_changes(2, "octagon+listseg")
