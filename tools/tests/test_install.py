"""`./install`: what stands below the prefix, and that it needs the repository no longer."""
import os
import shutil

from fake_kit import Scene


def files_below(folder: str) -> list[str]:
    return sorted(os.path.relpath(f"{at}/{name}", folder) for at, _, names in os.walk(folder) for name in names)


def test_what_is_installed_stands_alone() -> None:
    with Scene() as it:
        prefix = f"{it.room}/a prefix"
        ran = it.run(f"{it.checkout}/install", prefix)
        assert ran.status == 0, ran.said
        for words in ("compiled without proofs", "not on the PATH"):
            assert words in ran.written, ran.written
        shutil.rmtree(it.checkout)
        it.run(f"{prefix}/bin/daig", "x").expect(0, "quick version 1 x\n", "there is no command `x`")
        it.run(f"{prefix}/bin/daig", "serve", "no file").expect(0, "quick version 1 serve no file\n", "there is no such file")
        build = "(commit unknown, quick: compiled without proofs)\n"
        assert it.run(f"{prefix}/bin/daig", "--version").written.endswith(build)
        assert it.run(f"{prefix}/bin/daig", "--help").written.startswith("usage: daig serve")
        files = files_below(prefix)
        pages = ("share/man/man1/daig.1", "share/man/man1/daig-lsp.1")
        for name in ("bin/daig-lsp", "lib/daig/editors/daig_lsp.py", *pages):
            assert name in files, files
        assert not [name for name in files if "/test" in name or name.endswith(".new")], files
        message = '{"jsonrpc":"2.0","id":1,"method":"initialize","params":{"capabilities":{}}}'
        message += '|{"jsonrpc":"2.0","id":2,"method":"shutdown"}|{"jsonrpc":"2.0","method":"exit"}'
        given = "".join(f"Content-Length: {len(text)}\r\n\r\n{text}" for text in message.split("|"))
        if "lib/daig/daig-check" in files:
            assert "bin/daig-check" in files and "share/man/man1/daig-check.1" in files, files
            ran = it.run(f"{prefix}/bin/daig-check", "--help")
            assert ran.status == 0 and "daig-check" in ran.written, ran.said
            assert "lib/daig/docs/LANGUAGE.md" in files, "a page that daig-check names is there"
            ran = it.run(f"{prefix}/bin/daig-check", "--version")
            whole = it.run(f"{prefix}/bin/daig", "--version").written
            assert (ran.status, ran.written) == (0, f"daig-check{whole.removeprefix('daig')}"), ran.written
        ran = it.run(f"{prefix}/bin/daig-lsp", given=given)
        assert ran.status == 0 and '"capabilities"' in ran.written, (ran.status, ran.written, ran.said)


def test_the_home_folder_is_where_it_stands_by_default() -> None:
    with Scene() as it:
        it.run(f"{it.checkout}/install")
        it.run(f"{it.home}/.local/bin/daig", "x").expect(0, "quick version 1 x\n")


def test_it_is_taken_away_again() -> None:
    with Scene() as it:
        os.makedirs(f"{it.room}/prefix/bin")
        with open(f"{it.room}/prefix/bin/other", "w") as out:
            out.write("other")
        it.run(f"{it.checkout}/install", f"{it.room}/prefix")
        it.run(f"{it.checkout}/install", f"{it.room}/prefix")
        ran = it.run(f"{it.checkout}/install", "--remove", f"{it.room}/prefix")
        assert ran.status == 0, ran.said
        assert files_below(f"{it.room}/prefix") == ["bin/other"], files_below(f"{it.room}/prefix")
        assert not os.path.exists(f"{it.room}/prefix/lib/daig")
        it.run(f"{it.checkout}/install", "--remove", f"{it.room}/prefix").expect(1, "", "nothing is installed")


def test_a_later_installation_takes_the_proved_program() -> None:
    with Scene() as it:
        it.run(f"{it.checkout}/install", f"{it.room}/prefix")
        it.run(f"{it.checkout}/prove")
        ran = it.run(f"{it.checkout}/install", f"{it.room}/prefix")
        assert "the proved program" in ran.written, (ran.written, ran.said)
        it.run(f"{it.room}/prefix/bin/daig", "x").expect(0, "proved version 1 x\n")


def test_what_others_put_there_is_not_overwritten() -> None:
    with Scene() as it:
        os.makedirs(f"{it.room}/prefix/bin")
        with open(f"{it.room}/prefix/bin/daig", "w") as out:
            out.write("other")
        it.run(f"{it.checkout}/install", f"{it.room}/prefix").expect(1, "", "is there already")
        with open(f"{it.room}/prefix/bin/daig") as text:
            assert text.read() == "other"


def test_words_that_it_does_not_take() -> None:
    with Scene() as it:
        for words in (["--help"], ["a", "b"], ["--remove", "a", "b"]):
            it.run(f"{it.checkout}/install", *words).expect(2, "", "usage: install")
