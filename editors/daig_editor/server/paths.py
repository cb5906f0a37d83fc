"""The ways of the runs that fail, step by step, as an editor shows them beside a finding."""
from __future__ import annotations

import asyncio

from daig_editor.language.checks import fault_of
from daig_editor.language.following import Followed, followed
from daig_editor.language.records import replace
from daig_editor.server.findings import Finding
from daig_editor.server.session import Good

# Of a run so many last steps are told; so many runs are followed.
MOST_TOLD, MOST_FOLLOWED = 32, 8
HERE = "the run comes here"


async def with_paths(good: Good, findings: list[Finding]) -> list[Finding]:
    """Findings, those with inputs with the way of their run, where it is followed to the same end.

    Runs are followed in a thread, since one may take as long as many keystrokes.
    """
    wanted = list(dict.fromkeys(it.inputs for it in findings if it.inputs is not None))[:MOST_FOLLOWED]
    runs = {it: await asyncio.to_thread(followed, good.program, it) for it in wanted}
    return [_with_path(good, it, runs.get(it.inputs) if it.inputs is not None else None) for it in findings]


def _with_path(good: Good, finding: Finding, run: Followed | None) -> Finding:
    """A finding with the way of a run that ends by it."""
    if run is None or (run.number, run.fault) != (finding.place.stmt.number, fault_of(finding.rule)):
        return finding
    steps = run.steps[-MOST_TOLD:]
    places = good.program.find_all({it.number for it in steps})
    words = [it.words or HERE for it in steps]
    words[-1] = f"the run ends here: {', '.join(run.values) or 'there are no variables'}"
    if len(steps) < len(run.steps):
        words[0] = f"earlier steps are left out; {words[0]}"
    return replace(finding, path=tuple((places[it.number], word) for it, word in zip(steps, words)))
