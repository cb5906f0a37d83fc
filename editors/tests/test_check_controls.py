"""Daily controls of daig-check: comments, daig.toml, which files, which rules, what is new, the words themselves."""
from __future__ import annotations

import json
import subprocess
from pathlib import Path
from xml.etree import ElementTree

from daig_editor.checking.patterns import Patterns
from daig_editor.server.choices import DOMAINS
from tests.check_tool import DEAD, FAILS, LOOPS, NO_PROGRAM, SAFE, UNSAFE, check, folder
from tests.client import Client
from tests.program import program

IGNORED = UNSAFE.replace("i == 3;", "i == 3; // daig: ignore[assert] it is checked elsewhere")
MANY_DEAD = "proc main() {\n  var i: int;\n  i = 1 - 1;\n  if (i > 0) {\n" + "    assert i == 3;\n" * 1234 + "  }\n}\n"


def brief(*words: object, where: Path, text: str = "") -> tuple[int, list[str], str]:
    """The status, the lines of the report, and the summary."""
    found = check("--format", "brief", *words, where=where, text=text)
    return found.status, found.out.splitlines(), found.err


def test_ignored() -> None:
    """A comment leaves out the findings of its rules on its line, or on the next line with code."""
    above = UNSAFE.replace("  assert", "  // daig: ignore[bounds, assert]\n\n  // a note\n  assert")
    lines = UNSAFE.replace("assert i == 3;", "assert\n    i == 3; //daig:ignore[assert]")
    with folder(a_imp=IGNORED, b_imp=above, c_imp=lines) as here:
        for name in ("a.imp", "c.imp"):
            assert brief(name, where=here)[:2] == (0, []), name
        status, told, summary = brief("b.imp", where=here)
        assert status == 0 and "1 finding ignored by comments" in summary, summary
        assert told == ["b.imp:4:3: note: nothing to ignore: no finding of bounds stands here [ignore]"], told
        over = LOOPS.replace("10) {", "10) { // daig: ignore[budget]")
        found = check("--budget", 1, "--domain", "interval", "-", where=here, text=over)
        assert found.status == 0 and "3 not known" in found.err, found


def test_ignored_in_the_editor() -> None:
    """The editor leaves out what the comments ignore."""
    client = Client({"daig": program(), "runs": 4})
    client.open("file:///a.imp", IGNORED)
    assert client.diagnostics(1) == []
    client.change("file:///a.imp", 2, [{"text": IGNORED.replace("daig: ignore", "daig: ignores")}])
    assert [it["code"] for it in client.diagnostics(2)] == ["assert"]
    client.close()


def test_ignoring_nothing() -> None:
    """Comments that ignore nothing, that name no rule, or have no list are told; other words are none."""
    for words, wanted in (
        ("daig: ignore[assert]", "note: nothing to ignore: no finding of assert stands here"),
        ("daig: ignore", "warning: a list of rules is wanted: `// daig: ignore[RULE] reason`"),
        ("daig: ignore[asert]", "warning: there is no rule `asert` to ignore; did you mean `assert`?"),
        ("daig: ignore[source]", "warning: there is no rule `source` to ignore"),
        ("daig: ignores all", ""),
        ("what daig: ignore[assert] means", ""),
    ):
        with folder(a_imp=SAFE.replace("i == 3;", f"i == 3; // {words}")) as here:
            status, told, _ = brief("a.imp", where=here)
            assert told == ([f"a.imp:4:18: {wanted} [ignore]"] if wanted else []), (words, told)
            assert status == ("warning" in wanted), words
    with folder(a_imp=SAFE.replace("i == 3;", "i == 3; // daig: ignore[assert]"), b_imp=NO_PROGRAM + "// daig: ignore[source]") as here:
        assert brief("--select", "bounds", "a.imp", where=here)[:2] == (0, []), "assert was not looked for"
        status, told, _ = brief("b.imp", where=here)
        assert status == 2 and len(told) == 2 and told[0].startswith("b.imp:2:3: error:"), told


def test_selected() -> None:
    """Findings of other rules are not told and do not count; why a file is not checked always is."""
    with folder(a_imp=UNSAFE, b_imp=NO_PROGRAM) as here:
        status, told, summary = brief("--select", "bounds,null", "a.imp", where=here)
        assert (status, told) == (0, []) and "; 1 finding of other rules" in summary, summary
        assert brief("--select", "assert", "a.imp", where=here)[0] == 1
        assert brief("--select", "assert", "b.imp", where=here)[0] == 2
        found = check("--select", "asert", "a.imp", where=here)
        assert found.status == 2 and "did you mean `assert`?" in found.err, found


def test_configuration() -> None:
    """The nearest daig.toml above a file counts for it, and the command line goes before it."""
    with folder(a_imp=LOOPS) as here:
        for name, text in (
            ("daig.toml", 'exclude = ["made", "b/old_*.imp"]\nselect = ["assert", "budget"]\nbudget = 1\ndomain = "interval"\n'),
            ("b/x.imp", LOOPS),
            ("b/old_1.imp", UNSAFE),
            ("made/y.imp", UNSAFE),
            ("c/daig.toml", 'include = ["*.prog"]\n'),
            ("c/z.prog", UNSAFE),
            ("c/z.imp", UNSAFE),
        ):
            (here / name).parent.mkdir(exist_ok=True)
            (here / name).write_text(text)
        status, told, _ = brief(".", where=here)
        names = [it.partition(":")[0] for it in told]
        assert status == 1 and names == ["./a.imp", "./b/x.imp", "./c/z.prog"], told
        assert "used up its budget" not in told[0] and "did not settle within its budget of 1 round" in told[0], told
        assert "the assertion may fail" in told[2], told
        assert brief("--budget", 100, "--domain", "octagon", "a.imp", where=here)[:2] == (0, [])
        assert brief("--isolated", "a.imp", where=here)[:2] == (0, [])
        assert brief("made/y.imp", where=here)[0] == 1, "a file that is named is checked"
        status, told, summary = brief("--force-exclude", "made/y.imp", "c/z.imp", where=here)
        assert (status, len(told)) == (1, 1) and "1 file excluded" in summary, (told, summary)
        assert brief("--config", "c/daig.toml", "a.imp", where=here)[:2] == (0, [])
        assert brief("-", where=here / "b", text=LOOPS)[0] == 1


def test_wrong_configurations() -> None:
    """What is wrong with a daig.toml is said, and nothing is checked."""
    for text, why in (
        ("exclud = []", "there is no key `exclud`; did you mean `exclude`?"),
        ('select = ["bound"]', "select: there is no rule `bound`; did you mean `bounds`?"),
        ('domain = "oct"', f"domain: one of {', '.join(DOMAINS)} is wanted"),
        ("budget = 0", "budget: a number from 1 to 10000 is wanted"),
        ("budget = true", "budget: a number from 1 to 10000 is wanted"),
        ('include = "a"', "include: a list of texts is wanted"),
        ("a = [", "daig.toml: "),
    ):
        with folder(a_imp=SAFE) as here:
            (here / "daig.toml").write_text(text)
            found = check("a.imp", where=here)
            assert found.status == 2 and not found.out and why in found.err, (text, found)
            assert found.err.startswith("daig-check: ") and "daig.toml: " in found.err, found
    with folder(a_imp=SAFE) as here:
        assert check("--config", "none.toml", "a.imp", where=here).status == 2
        (here / "daig.toml").mkdir()
        assert check("a.imp", where=here).status == 0


def test_patterns() -> None:
    """A pattern without a slash is of a name at any depth, another one of a whole path."""
    for pattern, path, is_one in (
        ("made", "a/made/x.imp", True),
        ("made/", "made/x.imp", True),
        ("old_*.imp", "a/old_1.imp", True),
        ("a/old_*.imp", "a/old_1.imp", True),
        ("a/old_*.imp", "b/a/old_1.imp", False),
        ("./a", "a/x.imp", True),
        ("mad", "made/x.imp", False),
        ("a/b", "a/b/c/x.imp", True),
    ):
        assert Patterns("/p", (pattern,)).match(f"/p/{path}") == is_one, (pattern, path)


def test_excluded() -> None:
    """Hidden files and folders, and excluded ones, are left out below a folder; a hidden folder may be named."""
    with folder(a_imp=SAFE, b_imp=UNSAFE) as here:
        for name in (".git/x.imp", ".hidden.imp", "made/deep/y.imp"):
            (here / name).parent.mkdir(parents=True, exist_ok=True)
            (here / name).write_text(UNSAFE)
        names = [it.partition(":")[0] for it in brief(".", where=here)[1]]
        assert names == ["./b.imp", "./made/deep/y.imp"], names
        assert brief("--exclude", "made,b.imp", ".", where=here)[:2] == (0, [])
        assert brief("--exclude", "made/deep", "--exclude", "b*", ".", where=here)[:2] == (0, [])
        assert [it.partition(":")[0] for it in brief(".git", where=here)[1]] == [".git/x.imp"]
        assert brief("--exclude", "*", ".", where=here)[0] == 2, "nothing was checked"


def test_new() -> None:
    """With --new the findings that the old text has do not count; what got worse does."""
    with folder(old_imp=UNSAFE, new_imp=UNSAFE) as here:
        for text, status in (
            (UNSAFE, 0),
            ("// more\n" + UNSAFE, 0),
            (UNSAFE.replace("i == 3", "i == 4"), 0),
            (UNSAFE.replace("}\n", "  assert i == 5;\n}\n"), 1),
            (UNSAFE.replace("i = input", "i = 4"), 1),
            (NO_PROGRAM, 2),
        ):
            (here / "new.imp").write_text(text)
            assert brief("--against", "old.imp", "--new", "new.imp", where=here)[0] == status, text
        (here / "new.imp").write_text(UNSAFE.replace("}\n", "  assert i == 5;\n}\n"))
        status, told, summary = brief("-a", "old.imp", "-n", "new.imp", where=here)
        assert [it for it in told if "[assert]" in it] == [f"new.imp:5:3: error: {FAILS} [assert]"], told
        assert "1 finding known from before" in summary, summary
        (here / "old.imp").write_text(LOOPS)
        (here / "new.imp").write_text(LOOPS.replace("i < 10", "i < 11"))
        assert brief("-a", "old.imp", "-n", "new.imp", where=here)[0] == 1
        over = ("--budget", 1, "--domain", "interval", "-n", "-a", "old.imp", "new.imp")
        (here / "new.imp").write_text(LOOPS.replace("a[i] = i", "a[i] = 7"))
        assert brief(*over, where=here)[0] == 0
        assert check("--new", "a.imp", where=here).status == 2


def test_new_failures() -> None:
    """A check that may have failed before, and fails in a run now, is new."""
    before = "proc main() {\n  var i: int;\n  i = input;\n  i = i + 5;\n  assert i * i != 1522756;\n}\n"
    with folder(old_imp=before, new_imp=before.replace("+ 5", "+ 1234")) as here:
        assert "warning" in brief("--try", 4, "old.imp", where=here)[1][0], "no run of the old text fails"
        status, told, _ = brief("--try", 4, "--against", "old.imp", "--new", "new.imp", where=here)
        assert status == 1 and any(": error: the assertion fails" in it for it in told), told
        assert brief("--try", 0, "--against", "old.imp", "--new", "new.imp", where=here)[0] == 0


def test_against_a_revision() -> None:
    """--against takes a revision of git: what is there is compared, what is not is new, another word is refused."""
    with folder(a_imp=UNSAFE, b_imp=SAFE) as here:
        (here / "below").mkdir()
        (here / "below/c.imp").write_text(LOOPS)

        def git(*words: str) -> None:
            """Runs git."""
            who = ["-c", "user.name=a", "-c", "user.email=b"]
            subprocess.run(["git", *who, *words], cwd=here, check=True, capture_output=True)

        git("init", "-q")
        git("add", ".")
        git("commit", "-q", "-m", "First")
        assert brief("--against", "HEAD", "--new", ".", where=here)[0] == 0
        (here / "below/c.imp").write_text(LOOPS.replace("i < 10", "i < 9"))
        (here / "d.imp").write_text(UNSAFE)
        status, told, _ = brief("--against", "HEAD", "--new", ".", where=here)
        assert status == 1 and told[0] == f"./below/c.imp:9:3: error: {FAILS} [assert]", told
        assert "./d.imp:1:1: note: new: there is no HEAD:./d.imp [change]" in told, told
        assert not [it for it in told if it.startswith(("./a.imp", "./b.imp"))], told
        assert brief("--against", "HEAD", "c.imp", where=here / "below")[0] == 1
        git("mv", "a.imp", "e.imp")
        status, told, _ = brief("--against", "HEAD", "--new", "e.imp", where=here)
        assert status == 1 and any("there is no HEAD:e.imp" in it for it in told), told
        status, told, _ = brief("--against", "HAED", ".", where=here)
        assert status == 2 and all("no such revision of git" in it for it in told), told
        status, told, _ = brief("--against", "HEAD", "-", where=here, text=SAFE)
        assert status == 2 and "standard input has no revisions" in told[0], told


def test_most_findings() -> None:
    """So many findings are told, the worst of a file first; all count, and how many are not told is said."""
    text = UNSAFE.replace("}\n", "  if (1 > 2) {\n    assert i == 4;\n  }\n  assert i == 5;\n}\n")
    with folder(a_imp=text, b_imp=UNSAFE, c_imp=NO_PROGRAM) as here:
        status, told, summary = brief("--max-findings", 2, "a.imp", "b.imp", where=here)
        assert status == 1 and [it.split(" ")[1] for it in told] == ["error:", "warning:"], told
        assert "; 2 findings more, not told" in summary, summary
        status, told, _ = brief("--max-findings", 0, "a.imp", where=here)
        assert (status, told) == (1, [])
        assert brief("--max-findings", 0, "c.imp", where=here)[0] == 2
        assert len(brief("--max-findings", 0, "c.imp", where=here)[1]) == 1


def test_folded() -> None:
    """Checks in a row that are never reached are told once to people, and one by one to programs."""
    with folder(a_imp=MANY_DEAD, b_imp=DEAD) as here:
        status, told, summary = brief("a.imp", where=here)
        wanted = "a.imp:5:5: note: never reached, nor are 1,233 more checks up to line 1238 [assert]"
        assert status == 0 and told == [wanted] and "1234 never reached" in summary, told
        assert check("a.imp", where=here).out.splitlines()[0] == wanted
        assert len(check("--format", "json", "a.imp", where=here).objects) == 1234


def test_github() -> None:
    """Commands of a workflow, whose special characters are written so that they are none."""
    with folder(b_imp=NO_PROGRAM) as here:
        (here / "daig.toml").write_text("")
        (here / "a, b%:c.imp").write_text(UNSAFE)
        found = check("--format", "github", ".", "none.imp", where=here)
        lines = found.out.splitlines()
        place = "file=a%2C b%25%3Ac.imp,line=4,col=3,endLine=4,endColumn=17,title=daig-check%3A assert"
        assert lines[0].startswith(f"::warning {place}::the assertion may fail%0Adepends on line"), lines
        assert lines[1].startswith("::error file=b.imp,line=2,col=3,"), lines
        assert lines[2] == "::error file=none.imp,line=1,title=daig-check%3A run::No such file or directory", lines


def test_junit() -> None:
    """XML with a suite for each file, whose sums are right."""
    with folder(a_imp=UNSAFE, b_imp=NO_PROGRAM, c_imp=SAFE, d_imp=DEAD) as here:
        (here / "e<&\x01.imp").write_text(UNSAFE)
        root = ElementTree.fromstring(check("--format", "junit", ".", where=here).out)
        assert root.attrib == {"name": "daig-check", "tests": "5", "failures": "2", "errors": "1"}, root.attrib
        suites = {it.attrib["name"]: it for it in root}
        assert set(suites) == {"./a.imp", "./b.imp", "./c.imp", "./d.imp", "./e<&\\x01.imp"}
        for suite in suites.values():
            for name, tag in (("tests", "testcase"), ("failures", "failure"), ("errors", "error")):
                assert len(list(suite.iter(tag))) == int(suite.attrib[name]), (suite.attrib, tag)
        case = suites["./a.imp"][0]
        assert case.attrib["name"] == "line 4: assert: assert i == 3;" and case[0].attrib["type"] == "assert"


def test_wrong_words() -> None:
    """A misspelt word is told in a line, with what could be meant; files may stand between options."""
    with folder(a_imp=SAFE, b_imp=SAFE) as here:
        for words, meant in (
            ("--formt json a.imp", "there is no option --formt; did you mean `--format`?"),
            ("--bugdet=3 a.imp", "there is no option --bugdet; did you mean `--budget`?"),
            ("-d octogon a.imp", "`octogon` is none of"),
            ("--explain bound", "did you mean `bounds`?"),
        ):
            found = check(*words.split(), where=here)
            assert found.status == 2 and meant in found.err and len(found.err.splitlines()) == 2, found
        assert check("a.imp", "--format", "json", "b.imp", "-q", where=here) == (0, "", "")
        assert check("-f", "json", "-q", "-j", 1, "-d", "octagon", "-o", "out", "-t", 1, "a.imp", where=here).status == 0
        assert (here / "out").read_text() == ""


def test_completion() -> None:
    """Each shell's script names all options; bash completes by it."""
    with folder(a_imp=SAFE) as here:
        for shell in ("bash", "zsh", "fish"):
            script = check("--completion", shell, where=here).out
            for name in ("format", "max-findings", "against", "force-exclude", "junit", "octagon+listseg"):
                assert name in script, (shell, name)
        (here / "done").write_text(check("--completion", "bash", where=here).out)
        for words, wanted in (("--form", "--format"), ("--format gi", "github"), ("--select bo", "bounds"), ("a", "a.imp")):
            typed = ["daig-check", *words.split()]
            command = f"source ./done; COMP_WORDS=({' '.join(typed)}); COMP_CWORD={len(typed) - 1}; _daig_check; echo ${{COMPREPLY[@]}}"
            done = subprocess.run(["bash", "-c", command], cwd=here, capture_output=True, text=True)
            assert done.stdout.split() == [wanted], (words, done)


def test_baseline_from_elsewhere() -> None:
    """A baseline holds wherever in the project the tool is run, and whichever links lead to a file."""
    with folder(a_imp=UNSAFE) as here:
        (here / "daig.toml").write_text("")
        (here / "below").mkdir()
        (here / "below/b.imp").write_text(UNSAFE)
        (here / "link").symlink_to("below")
        check("--format", "sarif", "--output", "old.sarif", ".", where=here)
        for where, words in ((here / "below", "--baseline ../old.sarif b.imp ../a.imp"), (here, "-b old.sarif link/b.imp"),
                             (Path("/"), f"-b {here}/old.sarif {here}/a.imp")):
            found = check(*words.split(), where=where)
            assert found.status == 0 and "known from before" in found.err, (words, found)
        uris = [it["locations"][0]["physicalLocation"]["artifactLocation"]["uri"]
                for it in json.loads((here / "old.sarif").read_text())["runs"][0]["results"]]
        assert uris == ["a.imp", "below/b.imp"], uris
