"""A real Neovim in a terminal of tmux: its keys, its screen, and a picture of it."""
from __future__ import annotations

import html
import os
import re
import shutil
import subprocess
import tempfile
import time
from pathlib import Path

from tests.program import program

EDITORS = Path(__file__).resolve().parents[1]
COLOURS = ["#2e3436", "#cc0000", "#4e9a06", "#c4a000", "#3465a4", "#75507b", "#06989a", "#d3d7cf"]
BRIGHT = ["#555753", "#ef2929", "#8ae234", "#fce94f", "#729fcf", "#ad7fa8", "#34e2e2", "#eeeeec"]
_ESCAPE = re.compile(r"\x1b\[([0-9;]*)m")


class Terminal:
    """Neovim with one file in a terminal of so many columns and lines."""

    def __init__(self, file: Path, columns: int = 116, lines: int = 19) -> None:
        self.socket = f"daig-test-{os.getpid()}"
        folder = file.parent
        start = folder / "init.vim"
        start.write_text(
            f"set runtimepath^={EDITORS}/nvim\nfiletype plugin indent on\nsyntax on\n"
            "set number laststatus=0 noruler noshowcmd shortmess+=F updatetime=100 signcolumn=yes\n"
            "highlight SignColumn ctermbg=NONE\nhighlight NormalFloat ctermbg=238 ctermfg=252\n"
            "highlight LineNr ctermfg=242\nhighlight DiagnosticHint ctermfg=109\nset fillchars=eob:\\ \n"
            f"let g:daig = {{'daig': '{program()}'}}\n"
            "lua vim.diagnostic.config({ virtual_text = { prefix = '■' }, severity_sort = true })\n"
        )
        self._tmux("new-session", "-d", "-x", str(columns), "-y", str(lines), f"nvim --clean -u {start} {file}")
        self._tmux("set", "-g", "status", "off")

    def _tmux(self, *words: str) -> str:
        """Runs a command of tmux."""
        environment = {**os.environ, "LANG": "C.UTF-8", "TERM": "xterm-256color"}
        done = subprocess.run(
            ["tmux", "-L", self.socket, "-f", "/dev/null", *words],
            capture_output=True, text=True, env=environment, timeout=60, check=False
        )  # fmt: skip
        return done.stdout

    def keys(self, *keys: str) -> None:
        """Types keys, by tmux's names for them."""
        self._tmux("send-keys", *keys)

    def type(self, text: str) -> None:
        """Types a text."""
        end = "\\;" if text.endswith(";") else ""  # a `;` at the end would end tmux's own command
        self._tmux("send-keys", "-l", text[: len(text) - bool(end)] + end)

    def command(self, text: str) -> None:
        """Types a command line."""
        self.keys("Escape")
        self.type(f":{text}")
        self.keys("Enter")

    def screen(self, colours: bool = False) -> str:
        """What the screen shows."""
        return self._tmux("capture-pane", "-p", *(["-e"] if colours else []))

    def expect(self, wanted: str, seconds: float = 60) -> str:
        """Waits until the screen shows a text."""
        until = time.monotonic() + seconds
        while time.monotonic() < until:
            shown = self.screen()
            if wanted in shown:
                return shown
            time.sleep(0.1)
        raise AssertionError(f"{wanted!r} is not shown:\n{self.screen()}")

    def expect_gone(self, unwanted: str, seconds: float = 60) -> None:
        """Waits until the screen does not show a text."""
        until = time.monotonic() + seconds
        while unwanted in self.screen():
            if time.monotonic() > until:
                raise AssertionError(f"{unwanted!r} is shown:\n{self.screen()}")
            time.sleep(0.1)

    def close(self) -> None:
        """Ends the terminal."""
        self._tmux("kill-server")


# ---------------------------------------------------------------------------------------------------------------------
# Pictures


def picture(screen: str, path: Path) -> None:
    """Writes a picture of a captured screen, by a headless Chromium; fails where that is not there."""
    browser = shutil.which("chromium") or shutil.which("chromium-browser")
    assert browser, "there is no Chromium"
    lines = screen.rstrip("\n").split("\n")
    while lines and not _ESCAPE.sub("", lines[-1]).strip():
        lines.pop()
    width = 8.43 * max(len(_ESCAPE.sub("", it)) for it in lines) + 24
    with tempfile.TemporaryDirectory() as folder:
        page = Path(folder) / "page.html"
        page.write_text(_page(lines), encoding="utf-8")
        size = f"--window-size={int(width)},{18 * len(lines) + 20}"
        words = [browser, "--headless", "--no-sandbox", "--disable-gpu", "--hide-scrollbars", size]
        words += [f"--screenshot={path.resolve()}", page.as_uri()]
        subprocess.run(words, capture_output=True, timeout=300, check=True, env={**os.environ, "HOME": folder})


def _page(lines: list[str]) -> str:
    """A page that looks as the screen."""
    style = (
        "body{margin:10px 12px;background:#1c1c1c;color:#d3d7cf}"
        "pre{margin:0;font:14px/18px 'DejaVu Sans Mono',monospace}"
    )
    body = "\n".join(_line(it) for it in lines)
    return f"<!doctype html><meta charset=utf-8><style>{style}</style><pre>{body}</pre>"


def _line(text: str) -> str:
    """A line with its colours."""
    parts, last, style = [], 0, ""
    state: dict[str, str] = {}
    for match in _ESCAPE.finditer(text):
        parts.append(_span(text[last : match.start()], style))
        _apply([int(it or 0) for it in match.group(1).split(";")], state)
        style, last = ";".join(f"{name}:{value}" for name, value in state.items()), match.end()
    return "".join(parts) + _span(text[last:], style)


def _span(text: str, style: str) -> str:
    """A part of a line."""
    return f'<span style="{style}">{html.escape(text)}</span>' if text and style else html.escape(text)


def _apply(codes: list[int], state: dict[str, str]) -> None:
    """What an escape sequence changes."""
    plain = {1: ("font-weight", "bold"), 3: ("font-style", "italic"), 4: ("text-decoration", "underline")}
    while codes:
        code = codes.pop(0)
        if code == 0:
            state.clear()
        elif code in plain:
            state[plain[code][0]] = plain[code][1]
        elif code in (38, 48) and len(codes) >= 2:
            state["color" if code == 38 else "background"] = _colour(codes)
        elif code in (39, 49):
            state.pop("color" if code == 39 else "background", None)
        elif 30 <= code <= 37 or 90 <= code <= 97:
            state["color"] = (COLOURS if code < 90 else BRIGHT)[code % 10]
        elif 40 <= code <= 47 or 100 <= code <= 107:
            state["background"] = (COLOURS if code < 100 else BRIGHT)[code % 10]


def _colour(codes: list[int]) -> str:
    """A colour of 256, or of three numbers."""
    if codes.pop(0) == 2:
        red, green, blue = (codes.pop(0) for _ in range(3))
        return f"rgb({red},{green},{blue})"
    number = codes.pop(0)
    if number < 16:
        return (COLOURS + BRIGHT)[number]
    if number >= 232:
        return f"rgb({(number - 232) * 10 + 8},{(number - 232) * 10 + 8},{(number - 232) * 10 + 8})"
    levels = [0, 95, 135, 175, 215, 255]
    red, green, blue = (number - 16) // 36, (number - 16) // 6 % 6, (number - 16) % 6
    return f"rgb({levels[red]},{levels[green]},{levels[blue]})"
