"""What `--against` tells of a change: the same as two whole analyses, with fewer cells."""
from __future__ import annotations

import asyncio
from random import Random

from daig_editor.checking.analysis import Wanted, analyse
from daig_editor.checking.comparison import analyse_against
from daig_editor.checking.revisions import OldText
from daig_editor.reports.finding import CheckedFile, Finding
from daig_editor.server.process import Settings
from tests.check_tool import EXAMPLES, FAILS, LOOPS, NO_PROGRAM, SAFE, UNSAFE, check, folder
from tests.program import changes, program
from tests.random_sources import ChangeMaker, SourceMaker


def told(checked: CheckedFile) -> list[Finding]:
    """All that is told of a file except for how many cells were computed."""
    return [it for it in checked.findings if it.key.check != "cells"]


def same(finding: Finding) -> tuple[object, ...]:
    """What is the same of a finding with the old text and without it; a slight one weighs more where it is new."""
    level = "" if finding.is_slight else finding.level.value
    causes = () if finding.is_slight else finding.causes
    return finding.span, finding.rule, level, finding.message, finding.key, finding.known, causes


def test_against_two_analyses() -> None:
    """By edits all is told as by two whole analyses, and the findings are those of the new text alone."""
    random = Random(53)
    maker = SourceMaker(random, 8)
    edited = 0
    for number in range(max(changes(200) // 10, 5)):
        domain = random.choice(["interval", "octagon+listseg"])
        wanted = Wanted(Settings(program(), domain, budget=random.choice([2, 100])), dead=True)
        old = maker.source(2)
        new = old
        for _ in range(random.randrange(4)):
            new = ChangeMaker(random, maker).change(new).of(new)
        before, after = OldText("old.imp", old.encode()), new.encode()
        by_edits, whole = (asyncio.run(analyse_against("new.imp", after, before, wanted, it)) for it in (True, False))
        assert told(by_edits) == told(whole) and by_edits.tally == whole.tally, (number, old, new)
        plain = asyncio.run(analyse("new.imp", after, wanted))
        assert sorted(same(it) for it in told(by_edits) if it.rule != "change") == sorted(map(same, plain.findings))
        edited += told(by_edits) != by_edits.findings
    assert edited


def test_against_cells() -> None:
    """A comment costs no cell; a change costs those that it touches; all of another program are computed."""
    arrays = (EXAMPLES / "arrays.imp").read_text()
    with folder(old_imp=arrays) as here:
        for new, wanted in (
            ("// more\n" + arrays.replace("  i =", "\n   i  =   "), "0 of 18 cells computed again"),
            (arrays.replace("i = a[i]", "i = a[n]"), "1 of 18 cells computed again"),
            (arrays.replace("n: int;", "n: int; var m: list;"), "18 of 18 cells computed again"),
            (LOOPS, "cells computed again"),
        ):
            (here / "new.imp").write_text(new)
            found = check("--against", "old.imp", "new.imp", where=here)
            assert f"new.imp:1:1: note: {wanted} [change]\n" in found.out or wanted in found.out, (wanted, found.out)
        (here / "new.imp").write_text(arrays)
        assert "[change]" not in check("--against", "old.imp", "new.imp", where=here).out, "nothing changed"


def test_against_words() -> None:
    """Verdicts and states that changed are told where they are, with what they were."""
    with folder(old_imp=LOOPS, new_imp=LOOPS.replace("i < 10", "i < 9")) as here:
        found = check("--against", "old.imp", "new.imp", where=here)
        lines = found.out.splitlines()
        assert found.status == 1 and lines[0] == f"new.imp:9:3: error: {FAILS} [assert]", found.out
        assert "      = before the change: safe" in lines, found.out
        assert "new.imp:5:3: note: the state at the head of this loop changed [change]" in lines, found.out
        assert (
            "      = before the change: 0 ≤ i ≤ 10, len a = 10" in lines
            and "      = now: 0 ≤ i ≤ 9, len a = 10" in lines
        ), found.out
        back = check("--against", "new.imp", "old.imp", where=here)
        assert back.status == 0, back
        assert f"old.imp:9:3: note: safe now; before the change: {FAILS} [change]" in back.out, back.out
        added = check(
            "--against", "old.imp", "-", where=here, text=LOOPS.replace("a[i] = i;", "a[i] = i; a[i + 1] = i;")
        )
        assert "<stdin>:6:15: warning: the index may be outside the array" in added.out, added.out
        assert "= new with the change" in added.out, added.out
        # A text that is read, and that the server takes neither by edits nor as a whole.
        found = check("--against", "old.imp", "-", where=here, text=LOOPS.replace("i = i + 1;", "i = a;"))
        assert (
            found.status == 2 and "<stdin>:7:" in found.out and "[source]" in found.out and "[change]" not in found.out
        )
        for form in ("json", "sarif", "html"):
            found = check("--against", "old.imp", "new.imp", "--format", form, where=here)
            assert found.status == 1 and "at the head of this loop changed" in found.out, (form, found)


def test_against_folders() -> None:
    """A folder is compared with the files of the same names in another; what is missing or broken is said."""
    with folder(a_imp=SAFE) as here:
        for name, text in (
            ("old/a", SAFE),
            ("new/a", UNSAFE),
            ("new/below/b", SAFE),
            ("old/c", NO_PROGRAM),
            ("new/c", SAFE),
        ):
            (here / name).parent.mkdir(exist_ok=True, parents=True)
            (here / f"{name}.imp").write_text(text)
        found = check("--format", "brief", "--against", "old", "new", where=here)
        lines = found.out.splitlines()
        assert "new/a.imp:4:3: warning: the assertion may fail [assert]" in lines and found.status == 2, found.out
        assert "new/below/b.imp:1:1: note: new: there is no old/below/b.imp [change]" in lines, found.out
        assert any(
            it.startswith("new/c.imp:1:1: error: nothing to compare with: old/c.imp: ") for it in lines
        ), found.out
        assert check("--against", "none", "new/a.imp", where=here).status == 2
        assert check("--against", "a.imp", "new", where=here).status == 2
        assert check("--against", "a.imp", "old/c.imp", where=here).status == 2
        assert check("--against", "old", "new/below", where=here).status == 0
