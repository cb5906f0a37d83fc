"""What lets a shell complete the words of daig-check: made of the words themselves, so that it always has all."""
from __future__ import annotations

import argparse
from typing import Iterator, NamedTuple

from daig_editor.reports.tool import NAME, RULES

# The options whose value is a file, and those whose value is a folder or a file.
FILES = ("--output", "--baseline", "--against", "--program", "--config", "--cert")


class Option(NamedTuple):
    """An option: its names, what it does, whether it has a value, and the values that there are, if they are few."""

    names: tuple[str, ...]
    words: str
    is_flag: bool
    values: tuple[str, ...]


def completion(shell: str, parser: argparse.ArgumentParser) -> str:
    """The script for a shell."""
    return {"bash": _bash, "zsh": _zsh, "fish": _fish}[shell](list(_options(parser)))


def _options(parser: argparse.ArgumentParser) -> Iterator[Option]:
    """All options."""
    for action in parser._actions:
        if action.option_strings:
            values = tuple(RULES) if action.dest == "select" else tuple(str(it) for it in action.choices or ())
            yield Option(tuple(action.option_strings), action.help or "", action.nargs == 0, values)


def _bash(options: list[Option]) -> str:
    """For bash: to be read by `source`, or put into its folder of completions."""
    words = " ".join(name for it in options for name in it.names)
    cases = []
    for it in options:
        if it.values:
            cases.append(f'        {"|".join(it.names)}) COMPREPLY=($(compgen -W "{" ".join(it.values)}" -- "$word")); return ;;')
        elif it.names[0] in FILES:
            cases.append(f'        {"|".join(it.names)}) COMPREPLY=($(compgen -f -- "$word")); return ;;')
        elif not it.is_flag:
            cases.append(f'        {"|".join(it.names)}) COMPREPLY=(); return ;;')
    return "\n".join(
        [
            f"# Completes the words of {NAME}: source <({NAME} --completion bash)",
            "_daig_check() {",
            '    local word=${COMP_WORDS[COMP_CWORD]} before=${COMP_WORDS[COMP_CWORD-1]}',
            '    case $before in',
            *cases,
            "    esac",
            "    if [[ $word == -* ]]; then",
            f'        COMPREPLY=($(compgen -W "{words}" -- "$word"))',
            "    else",
            '        COMPREPLY=($(compgen -d -- "$word") $(compgen -f -X "!*.imp" -- "$word"))',
            "    fi",
            "}",
            f"complete -o filenames -F _daig_check {NAME}",
            "",
        ]
    )


def _zsh(options: list[Option]) -> str:
    """For zsh: to be put into a folder of its `fpath` as `_daig-check`."""
    lines = [f"#compdef {NAME}", f"# Completes the words of {NAME}.", "_arguments -s \\"]
    for it in options:
        words = it.words.replace("[", "(").replace("]", ")").replace("'", "'\\''").replace(":", "\\:")
        value = "" if it.is_flag else f":value:({' '.join(it.values)})" if it.values else ":value:_files"
        names = "{" + ",".join(it.names) + "}" if len(it.names) > 1 else it.names[0]
        lines.append(f"  {names}'[{words}]{value}' \\")
    return "\n".join([*lines, "  '*:file:_files -g \"*.imp\"'", ""])


def _fish(options: list[Option]) -> str:
    """For fish: to be put into its folder of completions."""
    lines = [f"# Completes the words of {NAME}.", f"complete -c {NAME} -k -a '(__fish_complete_suffix .imp)'"]
    for it in options:
        names = " ".join(f"-l {name[2:]}" if name.startswith("--") else f"-s {name[1:]}" for name in it.names)
        value = "" if it.is_flag else f" -x -a '{' '.join(it.values)}'" if it.values else " -r"
        words = it.words.replace("\\", "\\\\").replace("'", "\\'")
        lines.append(f"complete -c {NAME} {names}{value} -d '{words}'")
    return "\n".join([*lines, ""])
