#!/usr/bin/env python3
"""Makes the list of crates, docs/CRATES.md, from the first sentence of each crate: crate_list.py [--check].

The layers stand below. Each crate of crates.txt is in one of them, and stands on crates of its own layer or of those
before it. `--check` compares the list with what stands in the document, and writes nothing.
"""
from __future__ import annotations

import os
import re
import sys
from typing import Iterator

sys.dont_write_bytecode = True

from kit import ROOT, listed
from tally import Tally

DOCUMENT = "docs/CRATES.md"
HEAD = """# The crates

Each layer stands only on itself and on those above it in this list. Most names begin with a family: base, imp (the
language), dom (domains), dbm (octagon matrices), batch, call, cell, cert, daig (the engine), edit, serve, gen, test. The
sentences are the first of each crate's own page, which says what the crate promises. This file is made by
`tools/crate_list.py`.
"""
LAYERS = {
    "Base": "base_values base_short base_counter io_edge base_hash state_table daig_order daig_traces base_sets",
    "Language": "imp_lex imp_syntax imp_parse imp_print imp_round_trip imp_slots imp_check imp_table imp_chains"
    " imp_words fault_words edit_entries edit_breaks imp_edit edit_history",
    "Input and output": "serve_command request_json serve_script gen_summary",
    "Meaning": "concrete_sem imp_run domain_laws fault_points batch_meaning batch_sound cert_meaning",
    "Domains": "num_bounds num_thresholds dom_numeric cert_words dom_interval_meaning dom_interval_precise dom_interval_words"
    " dom_interval dbm_core dbm_close dbm_incremental dbm_narrow dom_octagon_meaning dom_octagon_states dom_octagon_words"
    " dom_octagon shape_graph fold_laws shape_steps dom_listseg_meaning dom_listseg_sets dom_listseg_words dom_listseg"
    " dom_shapes_meaning dom_shapes dom_product_meaning dom_product batch_converges batch_product",
    "Batch interpretation and certificates": "call_contexts call_chains alarm_report batch_interp fault_verdicts fault_report"
    " cert_sound cert_complete cert_lines cert_write cert_reading cert_accepted cert_check",
    "Cells": "cell_names cell_rows daig_demands why_slice imp_flow_rows imp_flow daig_graph cell_graph loop_unroll"
    " memo_table daig_query why_cells cell_kept_set cell_removal edit_invalidate edit_keeps",
    "Sessions": "daig_machine daig_tickets daig_session serve_replies serve_answers serve_session"
    " reply_lines reuse_laws edit_bound_laws",
    "Program": "daig_gen gen_sources serve_output daig_server daig",
    "Tests": "test_domains test_session test_server examples",
}
SENTENCE = re.compile(r"(.+?[.])(?= [A-Z\[`(]|$)")


def root_file(crate: str) -> str:
    """The crate's root, from the top of the repository."""
    library = f"crates/{crate}/src/lib.rt"
    return library if os.path.exists(f"{ROOT}/{library}") else f"crates/{crate}/src/main.rt"


def first_sentence(crate: str) -> str:
    """The first sentence of the crate's page."""
    paragraph = []
    with open(f"{ROOT}/{root_file(crate)}") as lines:
        for line in lines:
            if not line.startswith("//!") or not line[3:].strip():
                break
            paragraph.append(line[3:].strip())
    text = " ".join(paragraph)
    found = SENTENCE.match(text)
    return found[1] if found else text


def placed(layers: dict[str, str]) -> dict[str, int]:
    """The place of each crate's layer."""
    return {crate: place for place, names in enumerate(layers.values()) for crate in names.split()}


def document() -> str:
    """The text of the list."""
    parts = [HEAD]
    for layer, names in LAYERS.items():
        parts += [f"\n## {layer}\n\n| Crate | What it is |\n|---|---|\n"]
        parts += [f"| [{it}](../{root_file(it)}) | {first_sentence(it)} |\n" for it in names.split()]
    return "".join(parts)


def faults(layers: dict[str, str] = LAYERS) -> Iterator[tuple[str, str]]:
    """What is wrong with the layers, by the name of what was checked."""
    places, known = placed(layers), listed()
    odd = sorted(places.keys() ^ known.keys())
    yield "each crate is in one layer", f"these are not, or are no crates: {' '.join(odd)}" if odd else ""
    upward = [f"{it} on {on}" for it in known for on in known[it] if on in places and places[on] > places.get(it, 0)]
    yield "no crate stands on a later layer", ", ".join(upward)


def main(words: list[str]) -> int:
    if words not in ([], ["--check"]):
        print("usage: crate_list.py [--check]", file=sys.stderr)
        return 2
    tally = Tally()
    for name, fault in faults():
        tally.note(name, fault)
    if tally.failed:
        return tally.end()
    if not words:
        with open(f"{ROOT}/{DOCUMENT}", "w") as out:
            out.write(document())
    with open(f"{ROOT}/{DOCUMENT}") as text:
        is_made = text.read() == document()
    tally.note(f"{DOCUMENT} is made from the crates", "" if is_made else "run tools/crate_list.py")
    return tally.end()


if __name__ == "__main__":
    sys.exit(main(sys.argv[1:]))
