"""Counts the false alarms of a program on twelve programs whose fault points are labelled.

    bench/score [--program PATH] [--domain WORD ..] [--only NAME ..] [--list] [--check] [--write]

`bench/precision` has the programs, and `points.jsonl` with a line for each fault that a statement can end a run with: the
program, the statement's number and line, the fault, and the truth: `cannot` with the reason, `can` with inputs of a run
that ends so, or `deep` where only a run of about 2^62 steps does. Where `octagon+listseg` does not prove what cannot fail,
`cause` says what is wanting, and `lost` at which statement it is lost. `proved_by` lists the domains that call it safe or
dead.

The table has for each program and domain: the points, those called safe, may, fails and dead, the false alarms (may or
fails where it cannot fail) and the missed faults (safe or dead where it can). Below it stand the false alarms by cause;
`--list` names each. With `--check` the last line is `N passed, M failed`: a fault that is missed fails, a point that a
domain proved and does not prove any more, a report that says otherwise than the faults do, and a run that does not end as
its point says. `--write` writes `proved_by` anew. Without `--program` it is the built program.
"""
from __future__ import annotations

import argparse
import json
import subprocess
import sys
from collections import Counter
from dataclasses import dataclass
from pathlib import Path
from typing import Any, Iterator

TOP = Path(__file__).resolve().parent.parent
FOLDER = TOP / "bench/precision"
POINTS = FOLDER / "points.jsonl"
DOMAINS = ("interval", "octagon", "listseg", "shapes", "octagon+listseg", "octagon+shapes")
VERDICTS = ("safe", "may", "fails", "dead")
# What says that no run ends with the fault.
PROVED = ("safe", "dead")
# The checks of a report, by the fault that each of them is.
CHECKS = {"bounds": "index", "null": "null", "assert": "assert"}
# What each line has.
FIELDS = ("program", "id", "line", "fault", "truth")
LIMIT = 600
# More steps than a run with the inputs of a point takes.
FUEL = 1_000_000

sys.path.insert(0, str(TOP / "tools"))

import places
from tally import Tally


class NoVerdicts(Exception):
    """The program gave no verdicts."""


@dataclass
class Point:
    """A fault that a statement can end a run with, and what is known of it."""

    program: str
    id: int
    line: int
    fault: str
    truth: str
    rest: dict[str, Any]

    @property
    def cannot(self) -> bool:
        return self.truth == "cannot"

    @property
    def proved_by(self) -> list[str]:
        found: list[str] = self.rest.get("proved_by", [])
        return found

    def name(self) -> str:
        return f"{self.program}.imp:{self.line}: {self.fault}, statement {self.id}"

    def is_false_alarm(self, verdict: str) -> bool:
        return self.cannot and verdict not in PROVED

    def is_missed(self, verdict: str) -> bool:
        return not self.cannot and verdict in PROVED

    def text(self) -> str:
        known = zip(FIELDS, (self.program, self.id, self.line, self.fault, self.truth))
        return json.dumps({**dict(known), **self.rest})


def all_points() -> list[Point]:
    found = []
    for line in POINTS.read_text().splitlines():
        rest = json.loads(line)
        program, number, at, fault, truth = (rest.pop(it) for it in FIELDS)
        found.append(Point(program, number, at, fault, truth, rest))
    return found


# A verdict by statement and fault.
Verdicts = dict[tuple[int, str], str]


def asked(program: Path, words: list[str], script: str = "") -> Any:
    """The object on the first line that the program writes."""
    command = [str(program), *words]
    try:
        ran = subprocess.run(command, input=script, capture_output=True, text=True, timeout=LIMIT)
        return json.loads(ran.stdout.splitlines()[0])
    except (OSError, subprocess.TimeoutExpired, IndexError, ValueError) as fault:
        raise NoVerdicts(f"{' '.join(command)}: {fault}") from fault


def fault_verdicts(program: Path, domain: str, source: Path) -> Verdicts:
    """What the program says of each fault."""
    told = asked(program, ["faults", "--domain", domain, str(source)])
    return {(it["id"], it["fault"]): it["verdict"] for it in told["faults"]}


def report_verdicts(program: Path, domain: str, source: Path) -> Verdicts:
    """What the program's report says of each check."""
    told = asked(program, ["serve", "--domain", domain, str(source)], '{"do":"report"}\n')
    return {(it["id"], CHECKS[it["check"]]): it["verdict"] for it in told["report"]}


def run_ends(program: Path, point: Point) -> bool:
    """Whether the run with the inputs of a point ends with its fault."""
    request = {"do": "run", "inputs": point.rest["inputs"], "fuel": FUEL}
    told = asked(program, ["serve", "--domain", DOMAINS[0], str(FOLDER / f"{point.program}.imp")], f"{json.dumps(request)}\n")
    return bool(told == {"run": "fault", "id": point.id, "fault": point.fault})


class Score:
    """The verdicts of one domain on all points of some programs."""

    def __init__(self, program: Path, domain: str, points: list[Point]) -> None:
        self.domain, self.points = domain, points
        self.verdicts: dict[str, Verdicts] = {}
        self.reports: dict[str, Verdicts] = {}
        for name in sorted({it.program for it in points}):
            source = FOLDER / f"{name}.imp"
            self.verdicts[name] = fault_verdicts(program, domain, source)
            self.reports[name] = report_verdicts(program, domain, source)

    def verdict(self, point: Point) -> str:
        return self.verdicts[point.program].get((point.id, point.fault), "none")

    def false_alarms(self) -> Iterator[Point]:
        return (it for it in self.points if it.is_false_alarm(self.verdict(it)))

    def missed(self) -> Iterator[Point]:
        return (it for it in self.points if it.is_missed(self.verdict(it)))

    def _row(self, name: str, points: list[Point]) -> str:
        counts = Counter(self.verdict(it) for it in points)
        false = sum(it.is_false_alarm(self.verdict(it)) for it in points)
        missed = sum(it.is_missed(self.verdict(it)) for it in points)
        told = "".join(f"{counts[it]:>7}" for it in VERDICTS)
        return f"{name:<10}{len(points):>8}{told}{false:>14}{missed:>8}"

    def show(self, lists_all: bool) -> None:
        print(self.domain)
        print(f"{'program':<10}{'points':>8}{''.join(f'{it:>7}' for it in VERDICTS)}{'false alarms':>14}{'missed':>8}")
        for name in self.verdicts:
            print(self._row(name, [it for it in self.points if it.program == name]))
        print(self._row("all", self.points))
        for kind in sorted({it.fault for it in self.points}):
            print(self._row(kind, [it for it in self.points if it.fault == kind]))
        causes = Counter(it.rest.get("cause", "not known") for it in self.false_alarms())
        if causes:
            print("false alarms by cause: " + ", ".join(f"{cause} {many}" for cause, many in causes.most_common()))
        for it in self.missed():
            print(f"MISSED {it.name()}: {self.verdict(it)}")
        for it in self.false_alarms() if lists_all else ():
            print(f"{it.name()}: {self.verdict(it)}, but {it.rest['why']} ({it.rest.get('cause', 'not known')})")
        print(flush=True)

    def check(self, tally: Tally) -> None:
        """Counts each point: one that is proved stays so, one that can fail is told, and a report agrees."""
        for it in self.points:
            verdict, fault = self.verdict(it), ""
            if it.is_missed(verdict):
                fault = f"{verdict}, but a run ends so"
            elif verdict not in PROVED and self.domain in it.proved_by:
                fault = f"{verdict}, but it was proved"
            tally.note(f"{it.name()}, by {self.domain}", fault)
        for name, report in self.reports.items():
            for at, verdict in report.items():
                told = self.verdicts[name].get(at, "none")
                fault = "" if (verdict in PROVED) == (told in PROVED) else f"a report says {verdict}, the faults {told}"
                tally.note(f"{name}.imp: {at[1]}, statement {at[0]}, by {self.domain}", fault)


def write(points: list[Point], scores: list[Score]) -> None:
    """Writes which domains prove each point."""
    for it in points:
        it.rest["proved_by"] = [score.domain for score in scores if score.verdict(it) in PROVED]
    POINTS.write_text("".join(f"{it.text()}\n" for it in points))


def main() -> int:
    ask = argparse.ArgumentParser(description=__doc__.split("\n", 1)[0])
    ask.add_argument("--program", type=Path, metavar="PATH")
    ask.add_argument("--domain", action="append", metavar="WORD")
    ask.add_argument("--only", action="append", metavar="NAME")
    ask.add_argument("--list", action="store_true")
    ask.add_argument("--check", action="store_true")
    ask.add_argument("--write", action="store_true")
    given = ask.parse_args()
    program = given.program or Path(places.any_fresh_program())
    if not program.is_file():
        sys.exit("bench: the program is not built: run ./daig first")
    points = [it for it in all_points() if not given.only or it.program in given.only]
    try:
        scores = [Score(program.resolve(), domain, points) for domain in given.domain or DOMAINS]
    except NoVerdicts as fault:
        sys.exit(f"bench: no verdicts: {fault}")
    if given.write:
        if given.only or given.domain:
            ask.error("--write is of all programs and domains")
        write(points, scores)
    if given.check:
        tally = Tally()
        for point in points:
            if "inputs" in point.rest:
                tally.note(f"{point.name()}, by its run", "" if run_ends(program, point) else "the run does not end so")
        for it in scores:
            it.check(tally)
        return tally.end()
    for it in scores:
        it.show(given.list)
    return int(any(next(it.missed(), None) for it in scores))


if __name__ == "__main__":
    sys.exit(main())
