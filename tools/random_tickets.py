#!/usr/bin/env python3
"""Steps tickets of all kinds beside whole requests: random_tickets.py PROGRAM [--many N] [--seed S].

A conversation is made at random: a program, tickets that are begun, stepped and cancelled, edits, undo and redo, and
questions in between. What the steps are to be replied is not read off the tickets: a second session gets the same edits, and
the whole request in the place of the step that ends a ticket. So

- the ticket that ends is replied byte for byte as the whole request is, by the program then present;
- a ticket that the program refuses ends with 16, just where the whole request is refused; a report never is;
- where the program stays, the steps of a ticket fill what the whole request would fill in all, each but the last one just
  what it may, and `cost` tells so.
"""
from __future__ import annotations

import argparse
import json
import os
import subprocess
import sys
import tempfile
from random import Random
from typing import Any

sys.dont_write_bytecode = True

from kit import ROOT
from tally import Tally, shown

sys.path.insert(0, f"{ROOT}/editors")

from tests.random_sources import SourceMaker

MANY = 200
DOMAINS = ("interval", "octagon", "listseg", "interval+listseg")
STATEMENTS = ("i0 = 1;", "i1 = i0 + 3;", "skip;", "assert i0 < 9;", "a0 = array 2;", "i2 = i0 / i1;")
MOST_OPEN = 16
LONG_STRING, NO_TICKET, MANY_TICKETS = 11, 13, 14

Request = dict[str, Any]


class Session:
    """A server of a program, which answers a line at a time."""

    def __init__(self, words: list[str]) -> None:
        self.process = subprocess.Popen(words, stdin=subprocess.PIPE, stdout=subprocess.PIPE)

    def reply(self, request: Request) -> bytes:
        assert self.process.stdin and self.process.stdout
        self.process.stdin.write(json.dumps(request).encode() + b"\n")
        self.process.stdin.flush()
        return self.process.stdout.readline()

    def cost(self) -> Request:
        found: Request = json.loads(self.reply({"do": "cost"}))
        return found

    def end(self) -> None:
        self.process.kill()
        self.process.communicate()


class Conversation:
    """A random conversation. One session steps tickets; a second one is asked whole requests where those end; a third one is
    asked what is refused. All get the same edits."""

    def __init__(self, random: Random, words: list[str]) -> None:
        self.random = random
        self.stepped, self.whole, self.probe = Session(words), Session(words), Session(words)
        # What each open ticket asks.
        self.open: dict[int, Request] = {}
        self.next_ticket = 1
        # The cells that steps filled since the first two sessions had the same, by tickets; 0 stands for none of them.
        self.filled: dict[int, int] = {}
        self.fault = ""

    def wants(self, told: str, got: object, wanted: object) -> None:
        if got != wanted and not self.fault:
            self.fault = f"{told}: {shown(str(got))} in place of {shown(str(wanted))}"

    def location(self) -> str:
        kind = self.random.choice(("after", "after", "before", "head", "end"))
        if kind == "end":
            return f"end {self.random.choice(('main', 'f0', 'f1', 'f9'))}"
        return f"{kind} {self.statement()}"

    def statement(self) -> int:
        """The number of a statement that is there or was, or the next one."""
        next_one: int = json.loads(self.probe.reply({"do": "program"}))["next"]
        return self.random.randrange(1, next_one + 1)

    def question(self) -> Request:
        what = self.random.choice(("state", "why", "report", "faults"))
        asks: Request = {"do": what}
        if what in ("state", "why"):
            asks["at"] = self.location()
            if self.random.random() < 0.2:
                asks["string"] = [self.statement() for _ in range(self.random.randrange(4))]
        elif what == "faults" and self.random.random() < 0.5:
            asks["only"] = self.random.choice(("dead", "safe", "may", "fails"))
        return asks

    def begin(self) -> None:
        """A ticket is refused exactly where the whole request is, or where sixteen are open."""
        asks = self.question()
        begins = {**asks, "do": "begin", "what": asks["do"]}
        if asks["do"] == "state" and self.random.random() < 0.3:
            begins = {**asks, "do": "ask"}
        got = json.loads(self.stepped.reply(begins))
        refused = json.loads(self.probe.reply(asks)).get("refused")
        if refused == LONG_STRING:
            wanted = {"refused": LONG_STRING}
        elif len(self.open) == MOST_OPEN:
            wanted = {"refused": MANY_TICKETS}
        elif refused:
            wanted = {"refused": refused}
        else:
            wanted = {"ticket": self.next_ticket}
            self.open[self.next_ticket] = asks
            self.next_ticket += 1
        self.wants(f"{begins}", got, wanted)

    def step(self) -> None:
        number = self.random.choice([*self.open] * 5 + [self.random.randrange(1, self.next_ticket + 2)])
        most = self.random.choice((0, 1, 1, 2, 3, 5, 10, 1000000))
        got = self.stepped.reply({"do": "step", "ticket": number, "n": most})
        if number not in self.open:
            self.wants(f"a step of {number}", got, b'{"refused":13}\n')
        elif got.startswith(b'{"pending":'):
            self.wants(f"a step of {most}", got, b'{"pending":%d}\n' % most)
            self.wants(f"the cost of a step of {most}", self.stepped.cost()["cost"], most)
            if most:
                self.filled[number] = self.filled.get(number, 0) + most
        else:
            self.end_ticket(number, most, got)

    def end_ticket(self, number: int, most: int, got: bytes) -> None:
        """The step that ends a ticket is replied as the whole request is."""
        asks = self.open.pop(number)
        cost = self.stepped.cost()
        wanted = self.whole.reply(asks)
        if wanted.startswith(b'{"refused":'):
            self.wants(f"the last step of {asks}", got, b'{"refused":16}\n')
            return
        self.wants(f"the last step of {asks}", got, wanted)
        if cost["cost"] > most:
            self.fault = self.fault or f"a step of {most} filled {cost['cost']}"
        if not {*self.filled} - {number}:
            # The two sessions had the same cells, and this ticket alone filled others.
            filled = self.filled.pop(number, 0) + cost["cost"]
            self.wants(f"all that steps of {asks} filled", filled, self.whole.cost()["cost"])
            self.wants(f"the cells after {asks}", cost["kept"], self.whole.cost()["kept"])
        self.meet()

    def meet(self) -> None:
        """Where the first two sessions have as many cells they have the same, since the first has all of the second. Else it
        is not known any more whose steps filled the others."""
        if self.stepped.cost()["kept"] == self.whole.cost()["kept"]:
            self.filled.clear()
        else:
            self.filled[0] = 1

    def cancel(self) -> None:
        number = self.random.choice([*self.open, self.next_ticket])
        got = json.loads(self.stepped.reply({"do": "cancel", "ticket": number}))
        self.wants(f"cancel {number}", got, {"cancelled": number} if self.open.pop(number, None) else {"refused": NO_TICKET})
        self.meet()

    def edit(self) -> None:
        number = self.statement()
        edits: list[Request] = [
            {"do": "replace", "id": number, "text": self.random.choice(STATEMENTS)},
            {"do": "delete", "id": number},
            {"do": "delete", "id": self.statement()},
            {"do": "insert", "place": f"after {number}", "text": self.random.choice(STATEMENTS)},
            {"do": "guard", "id": number, "text": "i0 < 7"},
            {"do": "drop", "proc": "f0"},
            {"do": "undo"},
            {"do": "redo"},
        ]
        edit = self.random.choice(edits)
        wanted = self.whole.reply(edit)
        self.wants(f"{edit}", self.stepped.reply(edit), wanted)
        self.wants(f"{edit}", self.probe.reply(edit), wanted)
        self.meet()

    def ask(self) -> None:
        asks = self.question()
        self.wants(f"{asks}", self.stepped.reply(asks), self.whole.reply(asks))
        self.meet()

    def run(self, turns: int) -> str:
        """What is wrong, if anything is."""
        ways = (self.begin, self.step, self.cancel, self.edit, self.ask)
        for _ in range(turns):
            self.random.choices(ways, (4, 20, 1, 4, 1))[0]()
            if self.fault:
                break
        for it in (self.stepped, self.whole, self.probe):
            it.end()
        return self.fault


def converse(program: str, seed: int, folder: str) -> str:
    """Holds the conversation of a seed, and tells what is wrong."""
    random = Random(seed)
    source = SourceMaker(random, random.randrange(3, 14)).source(random.randrange(4))
    path = f"{folder}/{seed}.imp"
    with open(path, "w") as out:
        out.write(source)
    budget = random.choice(("3", "10", "100"))
    words = [program, "serve", "--domain", random.choice(DOMAINS), "--budget", budget, path]
    return Conversation(random, words).run(random.randrange(10, 60))


def main() -> int:
    words = argparse.ArgumentParser(description=(__doc__ or "").split("\n", maxsplit=1)[0])
    words.add_argument("program")
    words.add_argument("--many", type=int, default=MANY, help=f"how many conversations: {MANY}")
    words.add_argument("--seed", type=int, default=0, help="the first one's seed")
    asked = words.parse_args()
    tally, program = Tally(), os.path.abspath(asked.program)
    with tempfile.TemporaryDirectory(prefix="tickets-") as folder:
        for seed in range(asked.seed, asked.seed + asked.many):
            tally.note(f"the conversation of seed {seed}", converse(program, seed, folder))
    return tally.end()


if __name__ == "__main__":
    sys.exit(main())
