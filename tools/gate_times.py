#!/usr/bin/env python3
"""Where the gate's time goes, and how long its chain of proofs were if crates were split or merged.

    gate_times.py [--log FILE] [--merge NEW=A+B ..] [--split OLD=A:0.4+B:0.6 ..] [--needs CRATE=A+B ..]

The table has for each crate the seconds of its proof, of its must-fail edits and of its tests, from the log of the last
gate, and for what that gate did not do again from an earlier one. The longest chain is what no number of processors can
shorten: crates of which each waits for the proof of the one before.

With the other words the chain is told before and after. `--merge` makes one crate of some. `--split` makes some of one,
each with its share of the time, each upon those before it; what needed the one needs them all. `--needs` then says
of which crates one of the new crates, or another, has need.
"""
from __future__ import annotations

import json
import os
import re
import sys
from dataclasses import dataclass, field
from typing import Iterable

sys.dont_write_bytecode = True

import kit
import kit_work
import places

LOG, TIMES = "gate.log", "gate_times.json"
# How many crates are named whose time is not known.
SHOWN = 8
LINE = re.compile(r"[\d.]+ (?:\| (?P<said>.*)|(?P<kind>\w+) (?P<crate>\w+) (?P<seconds>[\d.]+))")
PROVED = re.compile(r"rt: (\w+)(: its tests are)? (?:NOT )?PROVED", re.I)
TRIED = re.compile(r"rt: (\w+): trying its must-fail edits \(\d+\)")
EARLIER = re.compile(r"rt: (\w+): \d+ of its \d+ must-fail edits were tried by an earlier run")

# The seconds of each kind of work on each crate.
Times = dict[str, dict[str, float]]
# The crates that each crate needs.
Needs = dict[str, list[str]]


class Unclear(Exception):
    """The words ask for what cannot be."""


def read(lines: Iterable[str]) -> Times:
    """What a gate did itself, by its log."""
    done: dict[tuple[str, str], float] = {}
    earlier = set()
    for line in lines:
        found = LINE.match(line)
        if not found:
            continue
        if found["kind"]:
            key = found["crate"], found["kind"]
            done[key] = done.get(key, 0.0) + float(found["seconds"])
            continue
        said = found["said"]
        proved, tried, partly = PROVED.fullmatch(said), TRIED.match(said), EARLIER.match(said)
        # What took less than the log sees took no time.
        if proved:
            done.setdefault((proved[1], kit_work.TESTS if proved[2] else kit_work.PROOF), 0.0)
        elif tried:
            done.setdefault((tried[1], kit_work.EDITS), 0.0)
        elif partly:
            earlier.add((partly[1], kit_work.EDITS))
    times: Times = {}
    for (crate, kind), seconds in done.items():
        if kind in kit_work.KINDS and (crate, kind) not in earlier:
            times.setdefault(crate, {})[kind] = round(seconds, 1)
    return times


@dataclass
class Known:
    """What is known of the crates' times: what the last gate did, and what earlier ones did."""

    times: Times
    is_new: set[tuple[str, str]] = field(default_factory=set)

    def add(self, crate: str, kind: str, seconds: float) -> None:
        self.times.setdefault(crate, {})[kind] = seconds
        self.is_new.add((crate, kind))

    def of(self, crate: str, kind: str) -> float | None:
        return self.times.get(crate, {}).get(kind)

    def cell(self, crate: str, kind: str) -> str:
        """A time as the table has it."""
        seconds = self.of(crate, kind)
        return "-" if seconds is None else f"{seconds:.0f}{' ' if (crate, kind) in self.is_new else '*'}"


def known(folder: str, log: str) -> Known:
    """The times by a log, over those that earlier logs left in the folder, where they are kept."""
    path, found = f"{folder}/{TIMES}", Known({})
    if os.path.exists(path):
        with open(path) as text:
            found.times = json.load(text)
    with open(log, errors="replace") as lines:
        for crate, kinds in read(lines).items():
            for kind, seconds in kinds.items():
                found.add(crate, kind, seconds)
    with open(path, "w") as out:
        json.dump(found.times, out, indent=1)
    return found


def longest(needs: Needs, seconds: dict[str, float]) -> tuple[float, list[str]]:
    """The longest chain of crates of which each needs the one before, and its seconds."""
    best: dict[str, tuple[float, list[str]]] = {}

    def visit(crate: str, above: tuple[str, ...]) -> tuple[float, list[str]]:
        if crate in above:
            raise Unclear(f"a circle: {' needs '.join([*above[above.index(crate):], crate])}")
        if crate not in best:
            ways = [visit(it, (*above, crate)) for it in needs[crate] if it in needs]
            most, chain = max(ways, key=lambda it: it[0], default=(0.0, []))
            best[crate] = most + seconds.get(crate, 0.0), [*chain, crate]
        return best[crate]

    return max((visit(it, ()) for it in needs), key=lambda it: it[0], default=(0.0, []))


def merge(needs: Needs, seconds: dict[str, float], new: str, parts: list[str]) -> tuple[Needs, dict[str, float]]:
    """The crates with one in place of the parts."""
    below = dict.fromkeys(it for part in parts for it in needs[part] if it not in parts)
    others = {name: list(dict.fromkeys(new if it in parts else it for it in of)) for name, of in needs.items()}
    others = {name: of for name, of in others.items() if name not in parts}
    own = sum(seconds.get(it, 0.0) for it in parts)
    return {**others, new: list(below)}, {**seconds, new: own}


def split(needs: Needs, seconds: dict[str, float], old: str, parts: dict[str, float]) -> tuple[Needs, dict[str, float]]:
    """The crates with some in place of one, each upon those before it."""
    whole, names = seconds.get(old, 0.0), list(parts)
    made = {name: [it for of in below for it in (names if of == old else [of])] for name, below in needs.items()}
    below = made.pop(old)
    made.update({name: [*below, *names[:at]] for at, name in enumerate(names)})
    return made, {**seconds, **{name: whole * share for name, share in parts.items()}}


def changed(words: list[str], needs: Needs, seconds: dict[str, float]) -> tuple[Needs, dict[str, float]]:
    """The crates after what the words say, in their order but with `--needs` last."""
    pairs = [*zip(words[::2], words[1::2])]
    for word, text in sorted(pairs, key=lambda it: it[0] == "--needs"):
        name, found, rest = text.partition("=")
        parts = rest.split("+")
        if word == "--merge":
            check_known(parts, needs)
            needs, seconds = merge(needs, seconds, name, parts)
        elif word == "--split":
            check_known([name], needs)
            shares = {part: float(share) for part, _, share in (it.partition(":") for it in parts)}
            if abs(sum(shares.values()) - 1) > 0.01:
                raise Unclear(f"the shares of {name} are not 1 together")
            needs, seconds = split(needs, seconds, name, shares)
        else:
            check_known([name, *parts], needs)
            needs = {**needs, name: parts}
    return needs, seconds


def check_known(names: list[str], needs: Needs) -> None:
    for it in names:
        if it not in needs:
            raise Unclear(f"there is no crate {it}")


def own_needs(root: str = kit.ROOT) -> Needs:
    """The crates of crates.txt that each of them needs."""
    listed: Needs = kit.listed(root)
    return {name: [it for it in below if it in listed] for name, below in listed.items()}


def table(found: Known, crates: Iterable[str]) -> list[str]:
    """The table, the longest proofs first."""
    order = sorted(crates, key=lambda it: (-(found.of(it, kit_work.PROOF) or 0), it))
    lines = [f"{'seconds of':30}" + "".join(f"{it:>8} " for it in kit_work.KINDS)]
    lines += [f"{crate:30}" + "".join(f"{found.cell(crate, it):>9}" for it in kit_work.KINDS) for crate in order]
    sums = [sum(found.of(crate, kind) or 0 for crate in order) for kind in kit_work.KINDS]
    lines.append(f"{'all':30}" + "".join(f"{it:>8.0f} " for it in sums))
    if any(crate in found.times and (crate, kind) not in found.is_new for crate in order for kind in found.times.get(crate, {})):
        lines.append("* was kept, and took this long in an earlier run; - is not known, or there is none.")
    return lines


def chain_line(needs: Needs, seconds: dict[str, float]) -> str:
    whole, chain = longest(needs, seconds)
    told = ", ".join(f"{it} {seconds.get(it, 0.0):.0f}" for it in chain if seconds.get(it))
    return f"{whole:.0f} s of {sum(seconds.get(it, 0.0) for it in needs):.0f} s: {told}"


def told(folder: str, log: str = "", words: list[str] | None = None) -> list[str]:
    """The table and the chain, or with words the chain before and after a change."""
    found, needs = known(folder, log or f"{folder}/{LOG}"), own_needs()
    seconds = {it: found.of(it, kit_work.PROOF) or 0.0 for it in needs}
    unknown = [it for it in needs if found.of(it, kit_work.PROOF) is None]
    lines = [] if words else table(found, needs)
    lines.append(f"The longest chain of proofs: {chain_line(needs, seconds)}")
    if words:
        lines.append(f"After the change: {chain_line(*changed(words, needs, seconds))}")
    if unknown:
        more = " .." if len(unknown) > SHOWN else ""
        lines.append(f"No time is known of {len(unknown)} crates, so it is longer: {' '.join(unknown[:SHOWN])}{more}")
    return lines


def main(words: list[str]) -> int:
    log = ""
    if words[:1] == ["--log"] and len(words) > 1:
        log, words = words[1], words[2:]
    if len(words) % 2 or any(it not in ("--merge", "--split", "--needs") for it in words[::2]):
        print(str(__doc__).split("\n\n")[1].strip(), file=sys.stderr)
        return 2
    try:
        print("\n".join(told(places.quick_folder(), log, words)))
    except (Unclear, ValueError, OSError) as fault:
        print(f"gate_times.py: {fault}", file=sys.stderr)
        return 1
    return 0


if __name__ == "__main__":
    sys.exit(main(sys.argv[1:]))
