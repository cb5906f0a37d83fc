"""A real Neovim in a terminal types, breaks, mends, hovers, renames and lays out; what the screen shows is compared."""
from __future__ import annotations

import os
import shutil
import tempfile
import unittest
from pathlib import Path

from tests.terminal import EDITORS, Terminal, picture

TEXT = """// reads one element too far
proc main() {
  var i: int;
  var n: int;
  var a: array;
  n = input;
  a = array n;
  while (i < len a) {
    a[i] = i * i;
    i = i + 1;
  }
  i = a[n];
  assert i >= 0;
}
"""


def test_terminal() -> None:
    """One sitting. With DAIG_PICTURE in the environment a picture of it is written there."""
    if shutil.which("nvim") is None or shutil.which("tmux") is None:
        raise unittest.SkipTest("Neovim or tmux is not there")
    with tempfile.TemporaryDirectory() as folder:
        file = Path(folder) / "squares.imp"
        file.write_text(TEXT)
        terminal = Terminal(file)
        try:
            _sit(terminal)
        finally:
            terminal.close()


def _sit(terminal: Terminal) -> None:
    """Types, and looks at the screen."""
    terminal.expect("the index is outside the array")  # a run that fails was found
    terminal.command("12")
    terminal.keys("K")
    terminal.expect("before: 0 ≤ i ≤ 1000000")
    path = os.environ.get("DAIG_PICTURE")
    if path:
        picture(terminal.screen(colours=True), Path(path))
    terminal.keys("Escape")
    terminal.command("6")
    terminal.keys("A")
    terminal.keys("Enter")
    terminal.type("i = coutn;")
    terminal.keys("Escape")
    terminal.expect("no variable `coutn` is declared")
    terminal.keys("u")
    terminal.expect_gone("coutn")
    terminal.expect("the index is outside the array")
    terminal.command("9")
    terminal.keys("A")
    terminal.type(" i = (1;")
    terminal.keys("Escape")
    terminal.expect("`;` is unexpected, `)` is wanted")
    terminal.keys("u")
    terminal.expect_gone("is wanted")
    terminal.command("9")
    terminal.command("call cursor(9, 7) | lua vim.lsp.buf.rename('index')")
    terminal.expect("a[index] = index * index;")
    terminal.command("8,10left | silent %s/ = /=/e")
    terminal.expect("a[index]=index * index;")
    terminal.command("lua (vim.lsp.buf.format or vim.lsp.buf.formatting_sync)()")
    terminal.expect("    a[index] = index * index;")
    terminal.expect("the index is outside the array")


def test_files() -> None:
    """Neovim's files stand where it looks for them."""
    for name in ("ftdetect/imp.vim", "ftplugin/imp.vim", "indent/imp.vim", "syntax/imp.vim", "lua/daig.lua"):
        assert (EDITORS / "nvim" / name).is_file(), name
