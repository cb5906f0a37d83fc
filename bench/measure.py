"""What a run of the program takes: seconds of a processor, memory, and cells that are filled."""
from __future__ import annotations

import json
import subprocess
import sys
from pathlib import Path

from scripts import COST, Request

# What a process took is told by a small one that starts it: a process begins with the memory of the one that it came from.
METER = """
import os, sys
running = os.spawnv(os.P_NOWAIT, sys.argv[1], sys.argv[1:])
_, status, used = os.wait4(running, 0)
print(os.waitstatus_to_exitcode(status), used.ru_utime + used.ru_stime, used.ru_maxrss, file=sys.stderr)
"""


def timed(program: Path, folder: Path, words: list[str]) -> tuple[float, float]:
    """Runs a program on the script, and returns its seconds of a processor and its most memory in MiB."""
    command = [sys.executable, "-I", "-S", "-c", METER, str(program), *words, str(folder / "source.imp")]
    with open(folder / "script", "rb") as given, open(folder / "out", "wb") as taken:
        told = subprocess.run(command, stdin=given, stdout=taken, stderr=subprocess.PIPE, text=True).stderr
    status, seconds, most = told.split()[-3:]
    if status != "0":
        sys.exit(f"bench: {' '.join(words)} ended with {status}")
    return float(seconds), int(most) / 1024


def least(
    program: Path, folder: Path, requests: list[Request], repeat: int, words: list[str]
) -> tuple[float, float]:
    """The least seconds and the most memory of so many runs of a command; of `serve` each request has to have a reply."""
    (folder / "script").write_text("".join(json.dumps(it) + "\n" for it in requests))
    runs = [timed(program, folder, words) for _ in range(repeat)]
    if words[0] == "serve":
        replies = (folder / "out").read_bytes()
        lines = replies.count(b"\n")
        if lines != len(requests):
            sys.exit(f"bench: {len(requests)} requests have {lines} replies")
        if b'"refused"' in replies:
            sys.exit("bench: a request is refused")
    return min(it[0] for it in runs), max(it[1] for it in runs)


def cells(program: Path, folder: Path, requests: list[Request], words: list[str]) -> int:
    """How many cells the questions of the script fill, as `cost` tells after each."""
    asked = [it for each in requests for it in ([each, COST] if each["do"] in ("state", "report", "why", "step") else [each])]
    least(program, folder, asked, 1, words)
    replies = (folder / "out").read_text().splitlines()
    return sum(int(json.loads(reply)["cost"]) for request, reply in zip(asked, replies) if request is COST)


def measured(
    program: Path, folder: Path, requests: list[Request], repeat: int, words: list[str]
) -> tuple[float, str, str]:
    """The columns of a row after its requests, and the seconds in all."""
    is_serve, is_long = words[0] == "serve", len(requests) > 100_000
    idle, _ = least(program, folder, [], repeat, words) if is_serve else (0.0, 0.0)
    seconds, most = least(program, folder, requests, repeat, words)
    filled = cells(program, folder, requests, words) if is_serve and not is_long else 0
    many = sum(it["do"] == "replace" for it in requests)
    each = (seconds - idle) / len(requests) * 1e6 if requests else 0.0
    a_cell = f"{(seconds - idle) / filled * 1e9:.0f}" if filled else ""
    by_batch = f"{many * least(program, folder, [], repeat, ['batch', *words[1:]])[0]:.1f}" if many else ""
    return seconds, f"{seconds:>10.4f}{each:>12.1f}{a_cell:>9}{most:>8.1f}", f"{by_batch:>10}"
