"""The checks of the documents: what is wrong in a document is found, and each kind of it."""
from __future__ import annotations

import os
import tempfile

import change_places
import check_documents
import clauses
import crate_list
import dependencies
import draw_graph
import run_sessions

SERVING = "crates/daig_server/src/serving.rt"


def test_a_clause_that_is_gone_is_found() -> None:
    fault = check_documents.fault_in_file
    assert fault(SERVING, "serve", ["complete", "sound"]) == ""
    assert "no clause finished" in fault(SERVING, "serve", ["complete", "finished"])
    assert "no function served" in fault(SERVING, "served", [])
    assert "is no file" in fault("crates/daig_server/src/gone.rt", "serve", [])


CONTRACT = """pub fn f(&mut self, least: u8, steps: &mut Steps) -> u8
    requires small { least < 9 }
    // ensures told { True }
    ensures fits { result < 9 }
    ensures exact { result ≡ record { most = least; other = steps.new } }
{
    let inside: u8 = least;
}
"""


def test_a_clause_is_a_promise_and_no_parameter_premise_comment_or_field() -> None:
    assert clauses.clause_fault(CONTRACT, "f", ["fits", "exact"]) == ""
    for name in ("least", "steps", "small", "told", "most", "other", "inside"):
        assert name in clauses.clause_fault(CONTRACT, "f", ["fits", name]), name
    assert "no function" in clauses.clause_fault(CONTRACT, "g", [])


def test_clauses_are_those_of_one_function() -> None:
    two = CONTRACT + CONTRACT.replace("fits", "rises")
    assert clauses.clause_fault(two, "f", ["rises", "exact"]) == ""
    assert clauses.clause_fault(two, "f", ["rises", "fits"])


def test_the_rows_of_claims_are_read() -> None:
    rows = list(check_documents.theorem_rows())
    assert (SERVING, "serve", ["complete"], False) in rows and len(rows) > 20, rows
    assert sum(is_law for *_, is_law in rows) > 10
    assert clauses.law_fault(check_documents.read(SERVING), "serve", True)
    assert (SERVING, "serve", ["verified", "certified"]) in check_documents.clause_links("README.md")


def test_a_name_that_is_declared_nowhere_is_found() -> None:
    for span in ("serve", "batch_meaning", "--budget", "{\"do\":\"state\"}", "crates/examples/data", "specs/Turns.antt"):
        assert list(check_documents.unknown_in("README.md", span)) == [], span
    for span in ("serve_all_of_it", "--budgets", "{\"do\":\"states_of\"}", "crates/examples/date", "specs/Turned_off.antt"):
        assert list(check_documents.unknown_in("README.md", span)), span


def test_headings_have_anchors() -> None:
    assert check_documents.slug("Tested, not proved, trusted") == "tested-not-proved-trusted"
    assert "how-to-prove" in check_documents.anchors("docs/ARCHITECTURE.md")


def test_words_are_counted() -> None:
    assert check_documents.word_count("| a b | [c d](../e/f.md) |\n|---|---|\n") == 4


def test_each_crate_has_a_layer() -> None:
    assert [fault for _, fault in crate_list.faults()] == ["", ""]
    wrong = dict(crate_list.LAYERS)
    wrong["Base"] = wrong["Base"].replace("base_values", "imp_edit")
    wrong["Language"] = wrong["Language"].replace(" imp_edit", "")
    faults = [fault for _, fault in crate_list.faults(wrong)]
    assert "base_values" in faults[0] and "imp_edit on" in faults[1], faults


def test_the_diagram_says_what_stands_on_what() -> None:
    assert list(check_documents.diagram_faults(check_documents.read("docs/ARCHITECTURE.md"))) == []
    wrong = "```text\nCells    daig_query > daig_graph, daig_session\n```\n"
    faults = list(check_documents.diagram_faults(wrong))
    assert len(faults) == 1 and "daig_session" in faults[0], faults


def test_the_picture_empties_what_the_session_says() -> None:
    cells = draw_graph.cells()
    gone = draw_graph.emptied(cells)
    assert (len(cells), len(gone)) == (14, 12)
    for line in ('{"cost":14,"kept":14}', '{"cost":14,"kept":2}', '{"cost":12,"kept":14}'):
        assert line in check_documents.read("README.md"), line


def test_a_status_is_compared_and_fenced_blocks_are_not_run() -> None:
    text = "```\n    $ exit 1\n```\n\nAsk:\n\n    $ exit 3\n    $ echo $?\n    3\n    $ exit 3\n"
    (begun, _, block), *others = run_sessions.blocks(text)
    assert not others
    found = run_sessions.commands(begun, block)
    with tempfile.TemporaryDirectory(prefix="session-") as folder:
        faults = [it.fault(folder, os.environ["PATH"]) for it in found]
    assert faults == ["", "", "ended with 3 in place of 0"], faults


def test_a_dependency_that_nothing_names_is_found() -> None:
    below = {"fold_laws": ["shape_graph", "base_values"], "io_edge": ["thiserror", "serde_json"]}
    assert dict(dependencies.unused(below)) == {"fold_laws": ["base_values"], "io_edge": ["serde_json"]}
    text = "ghost use Rattle.a.specs.X.{y};\nuse b::{C};\nuse d;\n// use e::F;\n#[derive(g::Error)]\n"
    assert {"a", "b", "d", "g"} <= dependencies.named_in(text) and "e" not in dependencies.named_in(text)


def test_a_crate_that_is_not_used_as_told_is_found() -> None:
    row = "| `lru` | results | [memo.rt](../crates/memo_table/src/memo.rt), [t.rt](../crates/state_table/src/table.rt) |\n"
    told = dependencies.told_users(f"| Crate | For | Code |\n|---|---|---|\n{row}")
    assert told == {"lru": ["crates/memo_table/src/memo.rt", "crates/state_table/src/table.rt"]}, told
    assert list(dependencies.user_faults("lru", told["lru"])) == ["crates/state_table/src/table.rt does not use lru"]


def test_the_places_of_a_change_are_found() -> None:
    found = {name: change_places.places(kind) for name, kind in change_places.KINDS.items()}
    for name, place, path in (
        ("domain", "serve_command", "src/job.rt"),
        ("domain", "serve_output", "specs/Settles.antt"),
        ("domain", "serve_output", "specs/Jobs.antt"),
        ("domain", "cert_accepted", "src/lib.rt"),
        ("domain", "batch_converges", "src/lib.rt"),
        ("domain", "docs", "man/daig.1"),
        ("domain", "editors", "daig_editor/server/choices.py"),
        ("request", "reuse_laws", "proofs/Grown.antt"),
        ("request", "reply_lines", "proofs/Refused.antt"),
        ("request", "gen_summary", "specs/Summary.antt"),
        ("request", "docs", "PROTOCOL.md"),
        ("simple-statement", "concrete_sem", "specs/Effects.antt"),
        ("compound-statement", "cert_complete", "proofs/Loops.antt"),
        ("compound-statement", "edit_bound_laws", "specs/Flow.antt"),
    ):
        assert path in found[name].get(place, []), (name, place, path, found[name].get(place))
    assert len(found["compound-statement"]) > 30
