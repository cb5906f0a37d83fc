"""Times the built program on inputs that it makes, at several sizes, so that growth shows.

    bench/run [--repeat N] [--program PATH] [--before PATH] [NAME ..]

Each case writes a source and a script into a temporary folder, runs `crates/daig/out/daig` or PATH on them, and takes the
least time of several runs: seconds of a processor, so that the load of the machine counts for little. The table has, for
each case and size: how many requests were answered, the seconds in all, the microseconds a request and the nanoseconds a
filled cell beyond the time of a run without requests, the most memory, the ratio of the time to that of the size before it,
and, where the script has edits, the seconds that a `batch` of the program anew after each edit would take (that many times
one). With `--before` the seconds of another program on the same input stand in the last column. The program is not built
here: run `./prove` once first. The load of the machine stands in the last line. Cases whose name begins with `days` take
minutes each and run only where they are named.
"""
from __future__ import annotations

import argparse
import os
import resource
import sys
import tempfile
from pathlib import Path

from cases import CASES
from measure import least, measured

TOP = Path(__file__).resolve().parent.parent
PROVED = TOP / "crates/daig/out/daig"


def main() -> None:
    ask = argparse.ArgumentParser(description=__doc__.split("\n", 1)[0])
    ask.add_argument("--repeat", type=int, default=5)
    ask.add_argument("--program", type=Path, default=PROVED, metavar="PATH")
    ask.add_argument("--before", type=Path, metavar="PATH")
    ask.add_argument("names", nargs="*", choices=[[], *CASES], metavar="NAME")
    given = ask.parse_args()
    program, other = given.program.resolve(), given.before and given.before.resolve()
    for it in (program, other):
        if it and not it.exists():
            sys.exit(f"bench: {it} is not built: run ./prove first")
    resource.setrlimit(resource.RLIMIT_CORE, (0, 0))
    print(
        f"{'case':<24}{'size':>10}{'requests':>10}{'seconds':>10}{'us/request':>12}{'ns/cell':>9}{'MiB':>8}{'ratio':>8}{'by batch':>10}"
        + (f"{'before':>10}" if other else "")
    )
    with tempfile.TemporaryDirectory() as room:
        folder = Path(room)
        for name in given.names or [it for it in CASES if not it.startswith("days")]:
            case, before = CASES[name], 0.0
            for size in case.sizes:
                (folder / "source.imp").write_text(case.source(size))
                requests, words = case.requests(size), case.command()
                seconds, first, last = measured(program, folder, requests, given.repeat, words)
                ratio = f"{seconds / before:.2f}" if before else ""
                theirs = f"{least(other, folder, requests, given.repeat, words)[0]:>10.4f}" if other else ""
                print(f"{name:<24}{size:>10,}{len(requests):>10,}{first}{ratio:>8}{last}{theirs}", flush=True)
                before = seconds
    print("load: " + " ".join(f"{it:.2f}" for it in os.getloadavg()))


if __name__ == "__main__":
    main()
