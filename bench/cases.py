"""What is measured: the cases, by their names."""
from __future__ import annotations

from typing import Callable, NamedTuple

from scripts import (
    REPORT, Request, at_end, blocks_inserted, breaks_inserted, days, edits_known, edits_near_end, edits_reports,
    edits_twenty, growing, leaf_states, loops_deleted, many, storm, tickets, why_at_end,
)
from sources import (
    PART, PARTS, chains, checks, comments, constants, five, graphs, lists, loops, mixed, parts, sixteen, slots, straight, thousand, wide,
)


class Case(NamedTuple):
    """What it is, its sizes, and for each size a source, and requests or the command that is run in place of `serve`."""

    what: str
    sizes: tuple[int, ...]
    source: Callable[[int], str]
    asked: Callable[[int], list[Request]] | str
    domain: str = ""

    def command(self) -> list[str]:
        """The words in front of the source's name."""
        name = self.asked if isinstance(self.asked, str) else "serve"
        return [name, "--domain", self.domain] if self.domain else [name]

    def requests(self, size: int) -> list[Request]:
        """The script of `serve`; another command reads none."""
        return [] if isinstance(self.asked, str) else self.asked(size)


def closing(many: int, from_number: int = 0) -> Case:
    """Loops over `many` ints by octagons: nearly all of their time is closing."""
    told = f"the state after loops over {many} ints, by octagons with {'wide' if from_number else 'narrow'} entries"
    return Case(told, (1_600, 3_200), lambda count: slots(count, many, from_number), at_end, "octagon")


def constants_by(domain: str) -> Case:
    """A loop that is widened, with so many thresholds."""
    return Case(f"the state after a loop over 15 ints beside so many constants ({domain})", (3_300, 33_000), constants, at_end, domain)


def storm_by(domain: str) -> Case:
    """The case of edits anywhere."""
    return Case(f"500 edits anywhere, with the state at the end after each ({domain})", (225, 450), mixed, storm, domain)


def days_of(domain: str) -> Case:
    """The case of an editor's days on 54 statements."""
    what = f"so many edits of five kinds on 54 statements, each constant new ({domain})"
    return Case(what, (100_000, 400_000), lambda _: mixed(54), lambda count: days(count, 54, 54), domain)


def days_of_parts(domain: str) -> Case:
    """The same on 999 statements, in the last of 18 procedures: a new constant is a new threshold of one procedure alone."""
    what = f"the same on 999 statements in procedures ({domain})"
    return Case(what, (100_000, 400_000), parts, lambda count: days(count, 999, PARTS * PART), domain)


CHAINS = (500, 1_000, 2_000, 4_000)
WIDE = (500, 1_000, 2_000, 3_600)

CASES = {
    "state-straight": Case("the state at the end of a straight program", (2_500, 5_000, 10_000), straight, at_end),
    "state-loops": Case("the state at the end of nested loops", (2_000, 4_000, 8_000), loops, at_end),
    "why-straight": Case("100 times why at the end of a straight program, after the state there", (2_500, 5_000, 10_000), straight, why_at_end),
    "why-loops": Case("the same of nested loops", (2_000, 4_000, 8_000), loops, why_at_end),
    "why-slots": Case("the same of loops over five ints", (800, 1_600, 3_200), five, why_at_end),
    "report": Case("a report where each third statement has a check", (750, 1_500, 3_000), checks, lambda _: [{"do": "report"}]),
    "requests": Case("10,000 state requests on a small program", (25, 50, 100), straight, many),
    "listing": Case("the listing of a straight program", (2_500, 5_000, 10_000), straight, lambda _: [{"do": "listing"}]),
    "run": Case("a run of a straight program", (2_500, 5_000, 10_000), straight, lambda _: [{"do": "run", "fuel": 1_000_000}]),
    "source": Case("reading a source of so many bytes", (250_000, 500_000, 1_000_000), comments, lambda _: []),
    "interval-5": Case("the state after loops over 5 ints, by intervals", (800, 1_600), five, at_end),
    "octagon-5": Case("the same by octagons", (800, 1_600), five, at_end, "octagon"),
    "interval-16": Case("the state after loops over 16 ints, by intervals", (800, 1_600), sixteen, at_end),
    "octagon-16": Case("the same by octagons", (800, 1_600), sixteen, at_end, "octagon"),
    **{f"closing-{many}": closing(many) for many in (5, 8, 16)},
    **{f"closing-{many}-wide": closing(many, 1 << 26) for many in (5, 8, 16)},
    **{f"constants-{it}": constants_by(it) for it in ("interval", "octagon")},
    "interval-lists": Case("the state after loops over lists, by intervals", (2_400, 4_800, 9_600), lists, at_end),
    "listseg-lists": Case("the same by list segments", (2_400, 4_800, 9_600), lists, at_end, "listseg"),
    "edits": Case("10,000 edits near the end with a state after each", (2_500, 5_000, 10_000), straight, edits_near_end),
    "edits-known": Case("the same with numbers that the program has elsewhere", (2_500, 5_000, 10_000), straight, edits_known),
    "edits-twenty": Case("the same where each edit empties twenty cells", (2_500, 10_000), straight, edits_twenty),
    "loops-deleted": Case("a loop near the end deleted, and that undone, 5,000 times", (2_000, 4_000, 8_000), loops, loops_deleted),
    "blocks-inserted": Case("a loop put near the end, and that undone, 5,000 times", (2_000, 4_000, 8_000), loops, blocks_inserted),
    "breaks-inserted": Case("a break put beside another near the end, and that undone, 5,000 times", (2_000, 4_000, 8_000), loops, breaks_inserted),
    "edits-report": Case("2,000 edits with a report after each", (250, 502, 1_000), checks, edits_reports),
    "tickets": Case("1,000 tickets opened and stepped between edits", (2_500, 10_000), straight, tickets),
    "chains": Case("the report where a leaf of twenty statements is called so many times", CHAINS, chains, lambda _: [REPORT]),
    "chains-batch": Case("the same by batch", CHAINS, chains, "batch"),
    "chains-cert": Case("the certificate of that program", CHAINS, chains, "cert"),
    "wide": Case("the report where that leaf has so many chains of three calls", WIDE, wide, lambda _: [REPORT]),
    "wide-batch": Case("the same by batch", WIDE, wide, "batch"),
    "wide-cert": Case("the certificate of that program", WIDE, wide, "cert"),
    "chains-state": Case("21 states at the end of that leaf, joined of all its chains", CHAINS, chains, leaf_states),
    "chains-graphs": Case("the same under 64 graphs of list segments", CHAINS, graphs, leaf_states, "listseg"),
    "chains-product": Case("the same by octagons too", CHAINS, graphs, leaf_states, "octagon+listseg"),
    "growing": Case("so many requests, half of them edits, on 1,000 statements", (10_000, 100_000), thousand, growing),
    "storm": storm_by("interval"),
    "storm-octagon": storm_by("octagon"),
    "storm-listseg": storm_by("listseg"),
    "storm-interval+listseg": storm_by("interval+listseg"),
    "storm-octagon+listseg": storm_by("octagon+listseg"),
    "days": days_of("interval"),
    "days-octagon": days_of("octagon"),
    "days-listseg": days_of("listseg"),
    "days-product": days_of("octagon+listseg"),
    "days-parts": days_of_parts("interval"),
    "days-parts-octagon": days_of_parts("octagon"),
    "days-parts-listseg": days_of_parts("listseg"),
    "days-parts-product": days_of_parts("octagon+listseg"),
}
