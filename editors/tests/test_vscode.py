"""The package for Visual Studio Code: its JavaScript by Node over a stub of the API, its grammar and its settings."""
from __future__ import annotations

import json
import re
import shutil
import subprocess
import unittest
from os import environ

from daig_editor.language.tokens import RESERVED
from daig_editor.protocol.settings import NAMES
from daig_editor.server.choices import DOMAINS
from tests.program import program
from tests.terminal import EDITORS

FOLDER = EDITORS / "vscode"
# The scopes that a line's parts have, the first rule that matches at a place counting, as an editor colours it.
LINES = [
    ("proc f(x: int) -> r: list { // note", {"proc": "storage.type.function", "f": "entity.name.function",
     "x": "variable.other.declaration", "int": "support.type", "->": "keyword.operator",
     "// note": "comment.line.double-slash"}),
    ("  x = call g(len a, null, 12);", {"call": "keyword.control.call", "g": "entity.name.function",
     "len": "keyword.operator.word", "null": "constant.language", "12": "constant.numeric"}),
    ("  while (p.next != q) { skip; }", {"while": "keyword.control", "next": "variable.other.member",
     "!=": "keyword.operator", "skip": "keyword.control"}),
]  # fmt: skip


def test_extension() -> None:
    """Node reads each script, and the extension serves a file over a stub of the API."""
    if shutil.which("node") is None:
        raise unittest.SkipTest("Node is not there")
    for script in sorted(FOLDER.glob("*.js")):
        checked = subprocess.run(["node", "--check", str(script)], capture_output=True, text=True, check=False)
        assert checked.returncode == 0, checked.stderr
    words = ["node", str(EDITORS / "tests" / "vscode_test.js")]
    done = subprocess.run(
        words, env={**environ, "DAIG_PROGRAM": program()}, capture_output=True, text=True, timeout=300, check=False
    )
    assert done.returncode == 0, done.stdout + done.stderr


def test_package() -> None:
    """The package names files that are there, and the settings that the language server has."""
    package = json.loads((FOLDER / "package.json").read_text())
    contributes = package["contributes"]
    for path in (package["main"], contributes["languages"][0]["configuration"], contributes["grammars"][0]["path"]):
        assert (FOLDER / path).is_file(), path
    json.loads((FOLDER / "language-configuration.json").read_text())
    properties = contributes["configuration"]["properties"]
    names = {it.removeprefix("daig.") for it in properties} - {"python", "server"}
    assert names == set(NAMES) - {"compareEvery"}, names
    assert tuple(properties["daig.domain"]["enum"]) == DOMAINS
    for name in ("daig.python", "daig.server", "daig.daig"):
        assert properties[name]["scope"] == "machine", "no folder may name what is run"


def scopes(line: str, rules: list[dict[str, object]]) -> dict[str, str]:
    """The scope of each part of a line."""
    told: dict[str, str] = {}
    place = 0
    while place < len(line):
        found = [(it, re.compile(str(it["match"])).search(line, place)) for it in rules]
        matches = [(it, match) for it, match in found if match and match.end() > match.start()]
        if not matches:
            break
        rule, match = min(matches, key=lambda it: it[1].start())
        if "name" in rule:
            told[match.group()] = str(rule["name"])
        captures = rule.get("captures")
        for number, capture in captures.items() if isinstance(captures, dict) else []:
            told[match.group(int(number))] = capture["name"]
        place = match.end()
    return told


def test_grammar() -> None:
    """The grammar colours words, names, numbers and comments as the language has them."""
    grammar = json.loads((FOLDER / "syntaxes" / "imp.tmLanguage.json").read_text())
    rules: list[dict[str, object]] = []
    for include in grammar["patterns"]:
        rule = grammar["repository"][include["include"].removeprefix("#")]
        rules += rule.get("patterns", [rule])
    for line, wanted in LINES:
        told = scopes(line, rules)
        for part, scope in wanted.items():
            assert told.get(part) == f"{scope}.imp", (line, part, told)
    for word in RESERVED - {"next", "item"}:
        assert scopes(word, rules)[word] != "variable.other.imp", word
