"""The requests that are measured, on a program of so many statements."""
from __future__ import annotations

from typing import Any, Sequence

Request = dict[str, Any]

AT_END: Request = {"do": "state", "at": "end main"}
REPORT: Request = {"do": "report"}
COST: Request = {"do": "cost"}


def at_end(count: int) -> list[Request]:
    return [AT_END]


def why_at_end(count: int) -> list[Request]:
    """The state fills all cells; then nothing is missing."""
    return [AT_END, *([{"do": "why", "at": "end main"}] * 100)]


def leaf_states(count: int) -> list[Request]:
    """The first state fills all cells; then each reads those of all chains."""
    return [{"do": "state", "at": "end leaf"}] * 21


def many(count: int) -> list[Request]:
    return [AT_END] * 10_000


def edits(
    count: int, place: int, times: int, *after: Request, numbers: Sequence[int] = range(50)
) -> list[Request]:
    """So many times: the statement at a place is replaced by one with another number, then these requests. New statements
    are numbered from the program's next number on, so the next request replaces the last one's."""
    requests: list[Request] = []
    number = place
    for i in range(times):
        requests += [{"do": "replace", "id": number, "text": f"a = {numbers[i % len(numbers)]};"}, *after]
        number = count + 1 + i
    return requests


def edits_near_end(count: int) -> list[Request]:
    """The first state fills the program; each edit empties about four cells."""
    return [AT_END, *edits(count, count - 3, 10_000, AT_END)]


def edits_known(count: int) -> list[Request]:
    """The same with numbers that the program has elsewhere, so that the thresholds of widening stay."""
    return [AT_END, *edits(count, count - 3, 10_000, AT_END, numbers=(1, 5))]


def edits_twenty(count: int) -> list[Request]:
    """Each edit empties about twenty cells."""
    return [AT_END, *edits(count, count - 19, 10_000, AT_END)]


def loops_deleted(count: int) -> list[Request]:
    """A loop near the end, with all inside it, is taken away and put back. Groups have eight statements, the loop is the
    fourth."""
    inner = (count // 8 - 2) * 8 + 4
    return [{"do": "delete", "id": inner}, {"do": "undo"}] * 5_000


def blocks_inserted(count: int) -> list[Request]:
    """A loop with a break comes near the end, and that is undone. Groups have eight statements, the place is after the
    third."""
    text = "while (i < 10) { i = i + 1; if (i == 1) { break; } }"
    place = (count // 8 - 2) * 8 + 3
    return [{"do": "insert", "place": f"after {place}", "text": text}, {"do": "undo"}] * 5_000


def breaks_inserted(count: int) -> list[Request]:
    """A break comes near the end to a loop that has another one, before it, and that is undone. The loop stands after
    the third statement of a group of eight; its if is the second statement that comes with it."""
    place = (count // 8 - 2) * 8 + 3
    loop = {"do": "insert", "place": f"after {place}", "text": "while (i < 10) { i = i + 1; if (i == 1) { break; } }"}
    number = (count // 8) * 8 + 1
    more = {"do": "insert", "place": f"body {number}", "text": "if (i == 1) { break; }"}
    return [loop, *([more, {"do": "undo"}] * 5_000)]


def edits_reports(count: int) -> list[Request]:
    """Statement 2 is `i = 0;`, in front of the first check."""
    made = edits(count, count - 4, 2_000, REPORT)
    return [REPORT, *({**it, "text": it["text"].replace("a", "i")} if it["do"] == "replace" else it for it in made)]


def tickets(count: int) -> list[Request]:
    """A thousand tickets: an edit near the end, a ticket after it, a step of two cells, an edit, and a step to its end."""
    requests: list[Request] = [AT_END]
    number = count - 7
    for i in range(1_000):
        here: Request = {"do": "replace", "id": number, "text": f"a = {i % 50};"}
        requests += [here, {"do": "ask", "at": "end main"}, {"do": "step", "ticket": i + 1, "n": 2}]
        requests += [{**here, "id": count + 1 + 2 * i, "text": "a = 9;"}, {"do": "step", "ticket": i + 1, "n": 1_000}]
        number = count + 2 + 2 * i
    return requests


def growing(count: int) -> list[Request]:
    """A hundred thousand requests on a program of a thousand statements; `count` only tells how many."""
    return edits(1_000, 500, count // 2, AT_END)


def storm(count: int) -> list[Request]:
    """The state at the end fills all cells; then a statement anywhere is replaced, by numbers that the program has, and the
    state at the end is asked, 500 times. The last statement of each group of nine is the one that is replaced."""
    numbers, requests = [9 * (i + 1) for i in range(count // 9)], [AT_END]
    for i in range(500):
        group = i * 37 % len(numbers)
        requests += [{"do": "replace", "id": numbers[group], "text": f"c = b + {i % 7};"}, AT_END]
        numbers[group] = count + 1 + i
    return requests


def days(count: int, statements: int, last: int) -> list[Request]:
    """So many edits of five kinds in the group that ends with the statement `last`, with a state after each; each constant
    is new. Of six edits three take a number. A group has nine statements; the last one of it is replaced, and its loop gets
    a new guard."""
    requests: list[Request] = []
    loop, following = last - 7, statements + 1
    for i in range(0, count, 6):
        new = 1_000 + i
        made: list[Request] = [
            {"do": "replace", "id": last, "text": f"c = b + {new};"},
            {"do": "insert", "place": f"after {following}", "text": f"n = c - {new + 1};"},
            {"do": "undo"},
            {"do": "guard", "id": loop, "text": f"a < {new + 2}"},
            {"do": "insert", "place": f"after {following}", "text": f"n = b - {new + 3};"},
            {"do": "delete", "id": following + 2},
        ]
        for edit in made:
            requests += [edit, AT_END]
        last, following = following, following + 3
    return requests
