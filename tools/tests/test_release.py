"""`tools/release.py`: what the folder has, that it is named as its program, and that its sums are right."""
from __future__ import annotations

import hashlib
import os
import shutil

import check_documents
from fake_kit import ROOT, Scene
from release import SUMS, files_below, write_sums

VERSION = check_documents.project_version()


def sums(folder: str) -> dict[str, str]:
    """The sum of each file, as the file of sums tells it."""
    with open(f"{folder}/{SUMS}") as text:
        pairs = [it.rstrip("\n").split("  ", 1) for it in text]
    return {path: told for told, path in pairs}


def test_a_release_is_whole_and_runs_where_it_is_put() -> None:
    with Scene() as it:
        out = f"{it.room}/some releases"
        ran = it.run("python3", f"{it.checkout}/tools/release.py", out)
        folder = f"{out}/daig-{VERSION}-quick"
        assert ran.status == 0 and ran.written.startswith(f"{folder}: "), (ran.written, ran.said)
        assert os.listdir(out) == [f"daig-{VERSION}-quick"]
        told = sums(folder)
        assert sorted([*told, SUMS]) == files_below(folder)
        for path, wanted in told.items():
            with open(f"{folder}/{path}", "rb") as file:
                assert hashlib.sha256(file.read()).hexdigest() == wanted, path
        documents = [os.path.basename(path) for path in check_documents.documents() if path.startswith("docs/")]
        for path in ("bin/daig", "bin/daig-check", "bin/daig-lsp", "lib/daig/daig", "lib/daig/editors/imp.mk",
                     "lib/daig/README.md", "lib/daig/CHANGELOG.md", "lib/daig/docs/protocol.schema.json",
                     *(f"share/man/man1/{name}" for name in os.listdir(f"{ROOT}/docs/man")),
                     *(f"lib/daig/docs/{name}" for name in documents)):
            assert path in told, path
        shutil.move(folder, f"{it.room}/elsewhere")
        shutil.rmtree(it.checkout)
        it.run(f"{it.room}/elsewhere/bin/daig", "x").expect(0, "quick version 1 x\n")
        wanted = f"daig {VERSION} (commit unknown, quick: compiled without proofs)\n"
        it.run(f"{it.room}/elsewhere/bin/daig", "--version").expect(0, wanted)


def test_a_release_of_the_proved_program_is_named_so() -> None:
    with Scene() as it:
        it.run(f"{it.checkout}/prove")
        ran = it.run("python3", f"{it.checkout}/tools/release.py", f"{it.room}/out")
        assert ran.status == 0, ran.said
        folder = f"{it.room}/out/daig-{VERSION}-proved"
        it.run(f"{folder}/bin/daig", "x").expect(0, "proved version 1 x\n")
        it.run(f"{folder}/bin/daig", "--version").expect(0, f"daig {VERSION} (commit unknown, proved)\n")


def test_a_changed_file_has_another_sum() -> None:
    with Scene() as it:
        os.makedirs(f"{it.room}/made/below")
        for path, text in (("one", "1"), ("below/two", "2")):
            with open(f"{it.room}/made/{path}", "w") as out:
                out.write(text)
        assert write_sums(f"{it.room}/made") == 2
        before = sums(f"{it.room}/made")
        os.remove(f"{it.room}/made/{SUMS}")
        with open(f"{it.room}/made/one", "w") as out:
            out.write("3")
        write_sums(f"{it.room}/made")
        after = sums(f"{it.room}/made")
        assert before["below/two"] == after["below/two"] and before["one"] != after["one"]


def test_what_is_there_stays_and_wrong_words_are_refused() -> None:
    with Scene() as it:
        script = ("python3", f"{it.checkout}/tools/release.py")
        os.makedirs(f"{it.room}/out/daig-{VERSION}-quick")
        it.run(*script, f"{it.room}/out").expect(1, "", "is there already")
        assert os.listdir(f"{it.room}/out") == [f"daig-{VERSION}-quick"]
        wrong: list[list[str]] = [[], ["a", "b"], ["--help"]]
        for words in wrong:
            it.run(*script, *words).expect(2, "", "usage: tools/release.py OUT")


def test_the_version_stands_in_one_place() -> None:
    assert check_documents.version_fault(f"# Changes\n\n## {VERSION}\n\n## 1.0\n", VERSION) == ""
    assert check_documents.version_fault("# Changes\n\n## 1.0\n", VERSION) == f"1.0 in place of {VERSION}"
    assert check_documents.version_fault("# Changes\n", VERSION) == f"none in place of {VERSION}"
    for path in ("tools/words.sh", "editors/vscode/package.json", "editors/daig_editor/reports/tool.py"):
        assert VERSION not in check_documents.read(path), path
