"""Emacs itself, where it is there; what Helix is told; and the package for Visual Studio Code."""
from __future__ import annotations

import json
import os
import re
import shutil
import subprocess
import sys
import unittest
import xml.etree.ElementTree as xml
import zipfile
from importlib import import_module
from pathlib import Path

from daig_editor import VERSION
from daig_editor.server.choices import DOMAINS
from tests.check_tool import UNSAFE, folder
from tests.client import Client
from tests.program import program

EDITORS = Path(__file__).resolve().parents[1]


def test_emacs() -> None:
    """The script's checks hold."""
    emacs = shutil.which("emacs")
    has_eglot = ["--batch", "--eval", "(progn (require 'package) (package-initialize) (require 'eglot))"]
    if emacs is None or subprocess.run([emacs, *has_eglot], capture_output=True).returncode:
        raise unittest.SkipTest("Emacs with eglot is not there")
    with folder(a_imp=UNSAFE) as here:
        environment = {**os.environ, "DAIG_PROGRAM": program(), "HOME": str(here)}
        words = [emacs, "--batch", "-l", str(EDITORS / "tests/test_emacs.el"), str(here)]
        done = subprocess.run(words, env=environment, capture_output=True, text=True, timeout=300)
        assert done.returncode == 0 and "test_emacs: all holds" in done.stderr, done.stderr


def test_emacs_words() -> None:
    """The Emacs mode knows the words that the other grammars know."""
    vim = re.findall(r"syntax keyword \w+ (.*)", (EDITORS / "nvim/syntax/imp.vim").read_text())
    mode = (EDITORS / "emacs/imp-mode.el").read_text()
    lists = re.findall(r"\(regexp-opt '\(([^)]*)\)", mode)
    assert {it for line in vim for it in line.split()} == set(re.findall(r'"(\w+)"', " ".join(lists)))


def test_helix() -> None:
    """The entry is TOML, and names the language server and settings that there are."""
    try:
        toml = import_module("tomllib")
    except ImportError:
        raise unittest.SkipTest("Python before 3.11 reads no TOML") from None
    entry = toml.loads((EDITORS / "helix/languages.toml").read_text())
    server = entry["language-server"]["daig"]
    (language,) = entry["language"]
    assert server["command"] == "daig-lsp" and server["config"]["domain"] in DOMAINS, entry
    assert (language["name"], language["file-types"], language["language-servers"]) == ("imp", ["imp"], ["daig"]), entry


def test_package() -> None:
    """The package for Visual Studio Code has what its manifests name, and its language server runs out of it."""
    with folder(a_imp=UNSAFE) as here:
        subprocess.run([sys.executable, str(EDITORS / "vscode/pack.py"), "daig.vsix"], cwd=here, check=True)
        with zipfile.ZipFile(here / "daig.vsix") as package:
            package.extractall(here / "out")
            endings = {it.rsplit(".", 1)[-1] for it in package.namelist() if not it.startswith("[")}
        types = xml.parse(here / "out/[Content_Types].xml").getroot()
        assert endings <= {str(it.get("Extension"))[1:] for it in types}, endings
        root = xml.parse(here / "out/extension.vsixmanifest").getroot()
        (identity,) = root.findall(".//{*}Identity")
        extension = here / "out/extension"
        told = json.loads((extension / "package.json").read_text())
        assert (identity.get("Id"), identity.get("Version")) == (told["name"], told["version"]) == ("daig", VERSION)
        named = [told["main"], *(it["path"] for it in told["contributes"]["grammars"])]
        named += [it["configuration"] for it in told["contributes"]["languages"]]
        assert all((extension / it).is_file() for it in named), named
        scripts = re.findall(r'require\("(\./\w+\.js)"\)', (extension / "extension.js").read_text())
        assert scripts and all((extension / it).is_file() for it in scripts), scripts
        client = Client({"daig": program()}, command=[sys.executable, str(extension / "server/daig_lsp.py"), "--stdio"])
        client.open((here / "a.imp").as_uri(), UNSAFE)
        assert [it["code"] for it in client.diagnostics(1)] == ["assert"]
        client.close()
