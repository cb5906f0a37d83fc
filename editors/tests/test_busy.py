"""A long query never blocks typing: while the server computes for seconds, a change is followed at once."""
from __future__ import annotations

import time

from tests.client import Client, Json
from tests.program import program
from tests.random_sources import slow_source

URI = "file:///slow.imp"
CHANGES = 10
# A change waits for at most this part of the time that the whole query takes, on a machine of any speed.
LONGEST_WAIT = 1 / 4


def test_typing_while_busy() -> None:
    """Types while the first states are computed, then waits for them."""
    text = slow_source(300)
    line = text.count("\n") - 2
    client = Client({"daig": program(), "domain": "octagon", "compareEvery": 1})
    began = time.perf_counter()
    client.open(URI, text)
    client.command("daig.serverProgram", URI)  # the text is loaded before the first change
    waits = []
    for k in range(CHANGES):
        time.sleep(0.1)
        place: Json = {"line": line, "character": len("  assert x0 < ")}
        changes: list[Json] = [{"range": {"start": place, "end": place}, "text": str(1 + k % 9)}]
        asked = time.perf_counter()
        client.change(URI, 2 + k, changes)
        result = client.command("daig.serverProgram", URI)
        waits.append(time.perf_counter() - asked)
        digits = "".join(str(1 + i % 9) for i in reversed(range(k + 1)))
        assert isinstance(result, dict) and f"assert x0 < {digits}0;" in str(result["program"])
    typed = time.perf_counter() - began
    client.diagnostics(1 + CHANGES)
    took = time.perf_counter() - began
    client.close()
    counts = result["counts"]
    assert counts["starts"] == 1 and counts["requests"] == CHANGES, counts
    assert max(waits) < LONGEST_WAIT * (took - typed), f"waits {waits}, all {took}"
    most = max(waits) * 1000
    print(f"test_busy: {CHANGES} changes followed in {most:.0f} ms at most, beside {took - typed:.1f} s of work")
