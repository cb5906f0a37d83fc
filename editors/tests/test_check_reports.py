"""What daig-check writes in each format: the examples as they are kept, and the rules that every report keeps."""
from __future__ import annotations

import json
import os
import re
import subprocess
from html.parser import HTMLParser
from pathlib import Path
from typing import Any

from daig_editor import VERSION
from tests.check_tool import DEAD, EXAMPLES, FAILS, LOOPS, NO_PROGRAM, SAFE, TOP, UNSAFE, check, folder
from tests.program import program

GOLDEN = Path(__file__).resolve().parent / "golden"
FORMATS = ("text", "brief", "json", "sarif", "html", "github", "junit")
TWICE = (
    "proc f(x: int) {\n  assert x == 1;\n  assert x == 1;\n}\n"
    "proc main() {\n  var x: int;\n  x = input;\n  call f(x);\n  assert x == 1;\n}\n"
)

ALIKE = "proc main() {\n  var x: int;\n  x = input;\n  assert x == 1;\n  x = input;\n  assert x == 1;\n}\n"


def test_golden() -> None:
    """Each format of the examples is as it is kept. DAIG_GOLDEN=write keeps what comes out."""
    for form in FORMATS:
        found = check("--format", form, "--try", 32, EXAMPLES.relative_to(TOP), where=TOP)
        told = found.out.replace(TOP.as_uri(), "file:///checkout").replace(VERSION, "VERSION")
        path = GOLDEN / f"examples.{form}"
        if os.environ.get("DAIG_GOLDEN") == "write":
            path.write_text(told)
        assert found.status == 1 and told == path.read_text(), f"{form}: see {path}"
        assert found.err.startswith("14 files, 40 checks: 34 safe, 3 may fail, 2 always fail, 1 never reached; "), found.err
        assert found.err.endswith("; no run can fail in asking.imp, calls.imp, counting.imp, editing.imp, first.imp, "
                                  "pushing.imp, reversing.imp, reviewing.imp and 2 more\n"), found.err


def test_html_states() -> None:
    """The states of a page have a heading, and on a line of several statements each its own; a refused file has none."""
    several = "proc main() {\n  var i: int;\n  i = 3; i = i + 1;\n  i = 7;\n}\n"
    with folder(a_imp=several, b_imp=NO_PROGRAM) as here:
        page = check("--format", "html", ".", where=here).out
    assert page.count("known before the statement") == 1 and page.count('<th class="n">') == 2, page
    assert "<i>i = 3;</i> i = 0<br><i>i = i + 1;</i> i = 3</td>" in page and '<td class="s">i = 4</td>' in page, page


def test_text() -> None:
    """Columns count bytes; marks stand below what they mark, whatever comes before."""
    with folder(a_imp="proc main() { var i: int;\r\n\ti = input;\n\tassert i == 3; // é中\n}\n") as here:
        found = check("a.imp", where=here)
        assert found.out.splitlines()[:3] == [
            "a.imp:3:2: warning: the assertion may fail [assert]",
            "    3 |         assert i == 3; // é中",
            "      |         ^~~~~~~~~~~~~~",
        ], found.out
    with folder(a_imp="// 中é\nproc main() { var i: int; i = input;\n  assert\n i == 3; }") as here:
        assert "    3 |   assert\n      |   ^~~~~~\n" in check("a.imp", where=here).out


def test_json() -> None:
    """An object a line, with its place and its fingerprint."""
    with folder(a_imp=TWICE) as here:
        found = check("--format", "json", "a.imp", where=here).objects
        places = [(it["line"], it["column"], it["endLine"], it["endColumn"]) for it in found]
        assert places == [(2, 3, 2, 17), (9, 3, 9, 17)], found
        assert (
            found[0]["statement"] == "assert x == 1;" and found[0]["procedure"] == "f" and found[0]["dependsOn"] == [7, 8]
        )
        assert check("--format", "json", "--try", 3, "a.imp", where=here).objects[0]["inputs"] == [0]


def test_fingerprints() -> None:
    """A finding is known again by its fingerprint where comments, layout and lines come or go, and has it alone."""
    moved = "// more\n" + ALIKE.replace("  assert x", "  // here\n\n    assert   x").replace("{\n", "{  // begins\n", 1)
    mended = ALIKE.replace("x = input;", "x = 1;", 1)

    def found(text: str) -> list[dict[str, object]]:
        """The findings of two files with a text."""
        with folder(a_imp=text, b_imp=text) as here:
            (here / "daig.toml").write_text("")
            return check("--format", "json", "a.imp", f"{here}/b.imp", where=here).objects

    before, after, first_mended = found(ALIKE), found(moved), found(mended)
    assert len(before) == len({it["fingerprint"] for it in before}) == 4, before
    assert [it["fingerprint"] for it in after] == [it["fingerprint"] for it in before]
    assert [it["line"] for it in after] != [it["line"] for it in before]
    assert [it["fingerprint"] for it in first_mended] == [it["fingerprint"] for it in before[1::2]]


def test_each_call() -> None:
    """Of a check that may fail in one of several calls, what is known in each is told."""
    begin = "proc f(x: int) {\n  assert x < 9;\n}\nproc main() {\n  var x: int;\n"
    with folder(a_imp=begin + "  call f(1);\n  x = input;\n  call f(x);\n}\n", b_imp=begin + "  x = input;\n  call f(x);\n  call f(x);\n}\n") as here:
        told = check("a.imp", where=here).out.splitlines()
        assert told[4:6] == ["      = called from line 6: x = 1", "      = called from line 8: anything"], told
        assert "called from" not in check("b.imp", where=here).out, "both calls are alike"


def test_many_cases() -> None:
    """A state of many cases has a line for each."""
    text = (
        "proc main() {\n  var p: list;\n  var q: list;\n  var r: list;\n  var x: int;\n  x = input;\n"
        "  if (x == 1) {\n    p = new;\n  }\n  if (x == 2) {\n    q = new;\n  }\n  if (x == 3) {\n    r = new;\n  }\n"
        "  x = r.item;\n}\n"
    )
    with folder(a_imp=text) as here:
        told = check("a.imp", where=here).out.splitlines()
        first = next(k for k, it in enumerate(told) if it.endswith(" cases:"))
        many = int(told[first].split()[-2])
        assert many > 2 and all(it.startswith("      =   ") for it in told[first + 1 : first + 1 + many]), told
        assert len(told[first + 1 + many].split("      =   ")) == 1, told
        text = text.replace("r = new;", "r = new;\n    while (x != 3) {\n      p = new;\n      p.next = r;\n      r = p;\n      x = input;\n    }")
        told = check("-", where=here, text=text).out.splitlines()
        assert any("1 or more cells" in it for it in told) and not any(it.startswith("      =   more") for it in told), told


def test_many_facts() -> None:
    """Of much that is known of numbers what has a variable of the statement is told first; JSON has all."""
    names = "abcdefghijkl"
    lines = [f"  var {it}: int;\n" for it in names] + [f"  {it} = input;\n  assert {it} < 9;\n" for it in names]
    with folder(a_imp=f"proc main() {{\n{''.join(lines)}  assert l != k;\n}}\n") as here:
        told = check("--domain", "interval", "a.imp", where=here).out.splitlines()
        known = next(it for it in reversed(told) if "known here: " in it)
        assert known == "      = known here: k ≤ 8, l ≤ 8, a ≤ 8, b ≤ 8, c ≤ 8, d ≤ 8, e ≤ 8, f ≤ 8 and 4 more", known
        objects = check("--format", "json", "--domain", "interval", "a.imp", where=here).objects
        assert str(objects[-1]["known"]).count("≤") == 12, objects[-1]


def test_bounds() -> None:
    """A finding that depends on much tells so many places, and how many there are; of many findings the first tell any."""
    begin = "proc main() {\n  var x: int;\n  var s: int;\n"
    long = begin + "  x = input;\n" + "  s = s + x;\n" * 150 + "  assert s == 1;\n}\n"
    many = begin + "  x = input;\n  s = s + x;\n  assert s < 1 || x < 1;\n" * 205 + "}\n"
    with folder(long_imp=long, many_imp=many) as here:
        assert " depends on lines 154, 153, 152, 151, 150, 149, 148, 147, 146, 145, 144, 143 and 139 more\n" in check("long.imp", where=here).out
        assert len(check("long.imp", "--format", "json", where=here).objects[0]["dependsOn"]) == 151  # type: ignore[arg-type]
        result = json.loads(check("--format", "sarif", "long.imp", where=here).out)["runs"][0]["results"][0]
        assert (
            len(result["relatedLocations"]) == 100
            and "; of 151 related places 100 are told" in result["message"]["text"]
        )
        found = check("many.imp", "--format", "json", "--select", "assert", where=here).objects
        assert len(found) == 205 and found[199]["dependsOn"] and not found[200]["dependsOn"], found[199:201]


def test_baseline() -> None:
    """Findings of an earlier report do not count again; a file that is no program always does."""
    with folder(a_imp=UNSAFE, b_imp=NO_PROGRAM, bad="{", other="[]") as here:
        assert check("--format", "sarif", "--output", "old.sarif", "a.imp", "b.imp", where=here).status == 2
        found = check("--baseline", "old.sarif", "a.imp", where=here)
        assert (found.status, found.out) == (0, "") and "1 finding known from before" in found.err, found
        assert check("--baseline", "old.sarif", "b.imp", where=here).status == 2
        (here / "a.imp").write_text("// more\n" + UNSAFE.replace("}\n", "  assert i == 4;\n}\n"))
        found = check("--baseline", "old.sarif", "a.imp", "--format", "brief", where=here)
        assert found.status == 1 and found.out == f"a.imp:6:3: error: {FAILS} [assert]\n", found
        for name in ("bad", "other", "none", "a.imp", "/dev/null"):
            found = check("--baseline", name, "a.imp", where=here)
            assert found.status == 2 and found.out == "" and found.err.startswith(f"daig-check: {name}: "), (
                name,
                found,
            )


def test_words() -> None:
    """Words for people go to standard output with status 0; wrong ones are status 2."""
    with folder(a_imp=SAFE) as here:
        for words, wanted in (("--help", "status:"), ("--version", "daig-check 1."), ("--explain bounds", "0 <= e")):
            found = check(*words.split(), where=here)
            assert found.status == 0 and wanted in found.out and not found.err, (words, found)
        wrong = ("", "--no a.imp", "--explain no", "--jobs 0 a.imp", "--budget 10001 a.imp", "--delay -1 a.imp")
        for words in (*wrong, "--domain any a.imp", "--format xml a.imp", "--cert c -", "--against", "--try x a.imp"):
            found = check(*words.split(), where=here)
            assert found.status == 2 and not found.out and "usage: daig-check" in found.err, (words, found)


# ---------------------------------------------------------------------------------------------------------------------
# SARIF: the parts of its schema that the reports have. Each object has its required members, and no others than these.


class Form:
    """A text of a form."""

    def __init__(self, pattern: str) -> None:
        self.pattern = re.compile(pattern)


WORDS = Form(r"(?s).+")
URI = Form(r"(https?|file)://[!-~]+")
REFERENCE = Form(r"[!-~]+")
# What GitHub takes: of each text so many characters, and no more results, rules and places.
SHORT = Form(r"(?s).{1,1024}")
MOST = {"results": 25_000, "artifacts": 100_000, "rules": 25_000, "relatedLocations": 1_000, "tags": 20, "locations": 1_000}
TEXT = {"text": WORDS}
REGION = {"startLine": int, "startColumn": int, "endLine": int, "endColumn": int}
LOCATION = {
    "id?": int,
    "message?": TEXT,
    "physicalLocation": {"artifactLocation": {"uri": REFERENCE, "uriBaseId?": ("SRCROOT",)}, "region": REGION},
}
RESULT = {
    "ruleId": WORDS,
    "ruleIndex": int,
    "level": ("none", "note", "warning", "error"),
    "message": TEXT,
    "locations": [LOCATION],
    "rank": float,
    "relatedLocations": [LOCATION],
    "partialFingerprints": {"daig/v1": Form("[0-9a-f]{32}"), "primaryLocationLineHash": Form("[0-9a-f]{16}:1")},
    "codeFlows?": [{"threadFlows": [{"locations": [{"location": LOCATION}]}]}],
    "baselineState?": ("new", "unchanged", "updated", "absent"),
}
RULE = {
    "id": Form(r"\w+"),
    "shortDescription": {"text": SHORT},
    "fullDescription": {"text": SHORT},
    "help": {"text": WORDS, "markdown": WORDS},
    "helpUri": URI,
    "defaultConfiguration": {"level": ("none", "note", "warning", "error")},
    "properties": {
        "precision": ("very-high", "high", "medium", "low"),
        "problem.severity": ("error", "warning", "recommendation"),
        "tags": [WORDS],
    },
}
LOG = {
    "$schema": URI,
    "version": ("2.1.0",),
    "runs": [
        {
            "tool": {
                "driver": {
                    "name": WORDS,
                    "version": WORDS,
                    "semanticVersion": Form(r"\d+\.\d+\.\d+"),
                    "informationUri": URI,
                    "rules": [RULE],
                }
            },
            "automationDetails": {"id": Form(r".+/")},
            "originalUriBaseIds?": {"SRCROOT": {"uri": Form(r"file:///.*/")}},
            "columnKind": ("utf16CodeUnits", "unicodeCodePoints"),
            "invocations": [{"executionSuccessful": bool}],
            "artifacts": [
                {"location": {"uri": REFERENCE, "uriBaseId?": ("SRCROOT",)}, "properties": {"daig/noRunCanFail": bool}}
            ],
            "results": [RESULT],
            "properties": {"daig/faults": ("all", "checks")},
        }
    ],
}


def fits(value: object, shape: object, where: str = "log") -> None:
    """Fails where a value has not the shape."""
    if isinstance(shape, dict):
        assert isinstance(value, dict), where
        names = {it.removesuffix("?") for it in shape}
        assert set(value) <= names and {it for it in shape if not it.endswith("?")} <= set(value), (where, set(value))
        for name, inner in shape.items():
            if name.removesuffix("?") in value:
                fits(value[name.removesuffix("?")], inner, f"{where}.{name}")
    elif isinstance(shape, list):
        assert isinstance(value, list) and len(value) <= MOST.get(where.rpartition(".")[2], 100), where
        for it in value:
            fits(it, shape[0], where)
    elif isinstance(shape, tuple):
        assert value in shape, (where, value)
    elif isinstance(shape, Form):
        assert isinstance(value, str) and shape.pattern.fullmatch(value), (where, value)
    else:
        assert isinstance(shape, type) and type(value) is shape, (where, value)


def fits_together(run: dict[str, Any]) -> None:
    """Fails where the parts of a run do not fit each other, as the text of the standard says."""
    rules = run["tool"]["driver"]["rules"]
    assert len({it["id"] for it in rules}) == len(rules)
    prints = [it["partialFingerprints"] for it in run["results"]]
    for name in ("daig/v1", "primaryLocationLineHash"):
        assert len({it[name] for it in prints}) == len(prints), name
    for it in run["results"]:
        assert rules[it["ruleIndex"]]["id"] == it["ruleId"] and len(it["locations"]) == 1
        numbers = [place["id"] for place in it["relatedLocations"]]
        assert len(set(numbers)) == len(numbers) and all(number >= 0 for number in numbers)
        links = re.findall(r"(?<!\\)\[[^\]]*\]\(([^)]*)\)", it["message"]["text"])
        assert {int(link) for link in links} <= set(numbers), it["message"]
        for place in [*it["locations"], *it["relatedLocations"]]:
            region, file = (place["physicalLocation"][name] for name in ("region", "artifactLocation"))
            first, last = ((region[f"{end}Line"], region[f"{end}Column"]) for end in ("start", "end"))
            assert (1, 1) <= first <= last, region
            if "uriBaseId" in file:
                assert file["uriBaseId"] in run["originalUriBaseIds"], "a base is defined"
                assert not file["uri"].startswith(("/", "file:", "../")), file
            else:
                fits(file["uri"], URI)


def test_sarif() -> None:
    """Reports have the structure of SARIF 2.1.0: members, rules, places from 1 on, fingerprints that differ."""
    with folder(a_imp=TWICE, b_imp=NO_PROGRAM, c_imp=DEAD, d_imp="", e_imp=LOOPS) as here:
        (here / "daig.toml").write_text("")
        (here / "a b#é.imp").write_text(UNSAFE)
        words = ["--budget", 1, "--domain", "interval", ".", "none.imp", "/dev/null"]
        found = check("--format", "sarif", *words, where=here)
        log = json.loads(found.out)
        fits(log, LOG)
        run = log["runs"][0]
        fits_together(run)
        assert found.status == 2 and run["invocations"] == [{"executionSuccessful": False}]
        assert len(run["results"]) == 9 and run["originalUriBaseIds"]["SRCROOT"]["uri"] == f"file://{here.resolve()}/"
        places = [it["locations"][0]["physicalLocation"]["artifactLocation"] for it in run["results"]]
        assert {"uri": "a%20b%23%C3%A9.imp", "uriBaseId": "SRCROOT"} in places and {
            "uri": "file:///dev/null"
        } in places, places
        (here / "old.sarif").write_text(found.out)
        (here / "a.imp").write_text(TWICE.replace("}\n", "  assert x == 4;\n}\n", 1))
        log = json.loads(check("--format", "sarif", "--baseline", "old.sarif", "a.imp", where=here).out)
        fits(log, LOG)
        assert [it["baselineState"] for it in log["runs"][0]["results"]] == ["new"], log
    with folder(a_imp=TWICE) as here:
        log = json.loads(check("--format", "sarif", "a.imp", where=here).out)
        fits(log, LOG)
        fits_together(log["runs"][0])
        assert "[line 8](" in log["runs"][0]["results"][0]["message"]["text"]


def test_fingerprints_from_anywhere() -> None:
    """A report is the same wherever in its project the tool is run."""
    with folder() as here:
        (here / ".git").mkdir()
        (here / "a/b").mkdir(parents=True)
        (here / "a/b/c.imp").write_text(TWICE)
        places = (("", "a/b/c.imp"), ("a", "b"), ("a/b", "."), ("a/b", here / "a/b/c.imp"))
        logs = [check("--format", "sarif", words, where=here / where).out for where, words in places]
        assert len(set(logs)) == 1, logs


def test_sarif_columns() -> None:
    """Columns of SARIF count UTF-16 units, whatever bytes a line has before."""
    bytes_before = "é😀".encode()
    with folder() as here:
        for name, line in (("a", b"} @"), ("b", b"} \xff @"), ("c", bytes_before + b" }")):
            (here / f"{name}.imp").write_bytes(b"proc main() {\n" + line)
        log = json.loads(check("--format", "sarif", ".", where=here).out)
        regions = [it["locations"][0]["physicalLocation"]["region"] for it in log["runs"][0]["results"]]
        assert [(it["startLine"], it["startColumn"], it["endColumn"]) for it in regions] == [
            (2, 3, 4),
            (2, 3, 4),
            (2, 1, 2),
        ]


# ---------------------------------------------------------------------------------------------------------------------
# HTML

VOID = ("meta", "br", "link")


class _Page(HTMLParser):
    """Reads a page whose tags must be balanced."""

    def __init__(self) -> None:
        super().__init__(convert_charrefs=True)
        self.open: list[str] = []
        self.text = ""
        self.ids: list[str] = []
        self.links: list[str] = []

    def handle_starttag(self, tag: str, attrs: list[tuple[str, str | None]]) -> None:
        assert tag not in ("script", "iframe", "img", "link", "object"), f"a page with {tag}"
        found = dict(attrs)
        assert not [it for it in found if it.startswith("on") or it in ("src", "style")], found
        self.ids += [found["id"] or ""] if "id" in found else []
        self.links += [found["href"] or ""] if "href" in found else []
        if tag not in VOID:
            self.open.append(tag)

    def handle_endtag(self, tag: str) -> None:
        assert self.open and self.open.pop() == tag, f"</{tag}> within {self.open}"

    def handle_data(self, data: str) -> None:
        if "style" not in self.open:
            self.text += data


def test_html() -> None:
    """The page is balanced, all text is escaped, links lead to places of it, and it loads nothing."""
    hostile = "// <script>alert(1)</script> & \"'<b>\n" + UNSAFE + "// \x1b[31m </table>\n"
    with folder(a_imp=hostile, b_imp=LOOPS, c_imp=NO_PROGRAM) as here:
        (here / "<b onclick=x>&.imp").write_text(UNSAFE)
        found = check("--format", "html", "--budget", 1, "--domain", "interval", ".", "none.imp", where=here)
        page = _Page()
        page.feed(found.out)
        page.close()
        assert found.status == 2 and not page.open and len(page.ids) == len(set(page.ids))
        assert {it.removeprefix("#") for it in page.links} <= set(page.ids) and "url(" not in found.out
        for text in (
            "<script>alert(1)</script> & \"'<b>",
            "</table>",
            "<b onclick=x>&.imp",
            "the assertion may fail",
            "i = 0",
        ):
            assert text in page.text, text
        assert "\x1b" not in found.out and "could not be checked" in page.text and "used up its budget" in page.text


def test_documents() -> None:
    """The sessions in the documents are what the tool writes."""
    sessions = 0
    for document in (TOP / "README.md", TOP / "docs/CHECK.md"):
        for block in document.read_text().split("```\n")[1::2]:
            command, _, wanted = block.removeprefix("$ ").partition("\n")
            if "./daig-check" not in command:
                continue
            sessions += 1
            environment = {**os.environ, "DAIG_PROGRAM": program()}
            words = ["sh", "-c", f"({command}) 2>&1"]
            done = subprocess.run(words, cwd=TOP, env=environment, capture_output=True, text=True)
            assert done.returncode == 1 and done.stdout == wanted, (document, done.stdout)
    assert sessions == 2
