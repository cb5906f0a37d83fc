"""The words of daig-check on the command line."""
from __future__ import annotations

import argparse
import os
from typing import Callable, Iterable, NoReturn

from daig_editor import VERSION
from daig_editor.server.choices import DOMAIN, DOMAINS, FAULTS, WIDENINGS
from daig_editor.reports.suggestion import meant
from daig_editor.reports.tool import NAME, RULES, explained

FORMATS = ("text", "brief", "json", "sarif", "html", "github", "junit")
SHELLS = ("bash", "zsh", "fish")
MOST_JOBS = 128

FORMAT_HELP = (
    "text (as compilers write it), brief (a line each), json (an object a line), sarif (2.1.0), html (a page), "
    "github (workflow commands), junit (XML)"
)
PROGRAM_HELP = "the program daig (default: $DAIG_PROGRAM, else the one beside daig-check, else that on the PATH)"
USAGE = f"{NAME} [OPTIONS] FILE|FOLDER|- .."
DESCRIPTION = "Checks .imp files: says how a run may fail, what is known there, and what that depends on."
EPILOG = """\
status:
  0  nothing but notes, as of numbers that may pass the limits of 64 bits
  1  a finding: a run may fail, a loop used up its budget, no certificate holds
  2  wrong words, a file that cannot be read or is no program, or no answer from the program daig
The highest one counts.

The nearest daig.toml above a file may say include, exclude, select, faults, domain and budget; a comment
`// daig: ignore[RULE] reason` leaves out findings of its line.

examples:
  daig-check program.imp
  daig-check -f sarif -o report.sarif src
  daig-check --against HEAD --new src
"""


class _Formatter(argparse.RawDescriptionHelpFormatter):
    """Writes the help as wide as the terminal is, which argparse would load `shutil` to ask, for each word."""

    def __init__(self, prog: str) -> None:
        super().__init__(prog, width=_columns() - 2)


def _columns() -> int:
    """The columns of the terminal."""
    told = os.environ.get("COLUMNS", "")
    if told.isdigit() and int(told):
        return int(told)
    try:
        return os.get_terminal_size().columns or 80
    except OSError:
        return 80


class _Parser(argparse.ArgumentParser):
    """Says what is wrong in a line, with what could be meant."""

    def error(self, message: str) -> NoReturn:
        """Ends the process by status 2."""
        self.exit(2, f"{NAME}: {message.removeprefix('argument ')}\n{self.format_usage()}")


def parsed(words: list[str] | None = None) -> argparse.Namespace:
    """The words in their meaning; where `says` is text, to say it is all. Wrong words end the process by status 2."""
    parser = _parser()
    args, rest = parser.parse_known_intermixed_args(words)
    if rest:
        names = [name for action in parser._actions for name in action.option_strings]
        word = rest[0].partition("=")[0]
        parser.error(f"there is no option {word}{meant(word, names)}")
    args.says = _said(parser, args)
    if args.says:
        return args
    if not args.files:
        parser.error("a file, a folder or - is wanted")
    if args.cert == "":
        parser.error("--cert: a folder is wanted")
    if "-" in args.files and args.cert:
        parser.error("--cert keeps no certificate of standard input")
    if args.cluster and args.cert:
        parser.error("--cert: certificates are kept where daig-check runs, so not with --cluster")
    if args.new and not args.against:
        parser.error("--new: --against OLD says since when")
    return args


def _said(parser: argparse.ArgumentParser, args: argparse.Namespace) -> str:
    """What is said to people where they ask for it."""
    if args.help:
        return parser.format_help()
    if args.version:
        from daig_editor.checking.program import build_words

        return f"{NAME} {VERSION} {build_words()}\n"
    if args.completion:
        from daig_editor.commands.completion import completion

        return completion(args.completion, parser)
    return explained(args.explain) if args.explain else ""


def _parser() -> argparse.ArgumentParser:
    """The words that there are."""
    parser = _Parser(
        prog=NAME,
        usage=USAGE,
        description=DESCRIPTION,
        epilog=EPILOG,
        formatter_class=_Formatter,
        allow_abbrev=False,
        add_help=False,
    )
    parser.add_argument(
        "files", nargs="*", metavar="FILE", help="a file, a folder for all *.imp below it, or - for standard input"
    )
    parser.add_argument("--help", "-h", action="store_true", help="tell this, and nothing else")
    parser.add_argument("--version", "-V", action="store_true", help="tell the version, and nothing else")
    _choice(parser, "--explain", tuple(RULES), metavar="RULE", help=f"tell about a rule: {', '.join(RULES)}")
    _choice(
        parser, "--completion", SHELLS, metavar="SHELL", help=f"write what completes these words: {', '.join(SHELLS)}"
    )
    _add_files(parser.add_argument_group("which files"))
    _add_report(parser.add_argument_group("what is told"))
    _add_analysis(parser.add_argument_group("how it is checked"))
    return parser


def _add_files(group: argparse._ArgumentGroup) -> None:
    """The words on files."""
    group.add_argument(
        "--exclude",
        action="append",
        type=_list_of_words,
        default=[],
        metavar="PATTERN",
        help="leave out files and folders below those that are named, beside the hidden ones: a name, or a path with *",
    )
    group.add_argument("--force-exclude", action="store_true", help="leave out files that are named too")
    group.add_argument("--config", metavar="FILE", help="the configuration of all files")
    group.add_argument("--isolated", action="store_true", help="read no configuration")


def _add_report(group: argparse._ArgumentGroup) -> None:
    """The words on the report."""
    _choice(group, "--format", FORMATS, "-f", default="text", metavar="FORMAT", help=FORMAT_HELP)
    group.add_argument("--output", "-o", metavar="PATH", help="write the report there, whole or not at all")
    group.add_argument(
        "--select", type=_rules, metavar="RULES", help="tell findings of these rules alone, with commas between them"
    )
    _choice(
        group,
        "--faults",
        FAULTS,
        metavar="WHICH",
        help="all (default), strict (a number that may pass its limits counts too), or those of checks alone",
    )
    group.add_argument("--dead", action="store_true", help="checks that are never reached count as findings too")
    group.add_argument("--baseline", "-b", metavar="OLD.sarif", help="leave out the findings of an earlier report")
    group.add_argument(
        "--against",
        "-a",
        metavar="OLD",
        help="tell what changed since OLD: a file, a folder with files of the same names, or a revision of git",
    )
    group.add_argument("--new", "-n", action="store_true", help="with --against: leave out the findings that OLD has")
    group.add_argument(
        "--max-findings", type=_number(0, 1_000_000), metavar="N", help="tell so many findings; all count"
    )
    group.add_argument(
        "--try",
        "-t",
        type=_number(0, 1_000_000),
        default=32,
        metavar="N",
        dest="tries",
        help="run each program with N lists of inputs (default 32); what fails in a run is an error",
    )
    group.add_argument(
        "--inputs", "-i", type=_inputs, metavar="N,..", help="run each program with these inputs first, as 3,-1,0"
    )
    group.add_argument(
        "--cert", metavar="FOLDER", help="keep certificates there: verify them, and write those anew that do not hold"
    )
    group.add_argument("--quiet", "-q", action="store_true", help="no progress and no summary")


def _add_analysis(group: argparse._ArgumentGroup) -> None:
    """The words on the analysis."""
    _choice(group, "--domain", DOMAINS, "-d", metavar="D", help=f"{', '.join(DOMAINS)} (default {DOMAIN})")
    _choice(
        group, "--widening", WIDENINGS, default="thresholds", metavar="W", help="plain or thresholds (default)"
    )
    group.add_argument(
        "--delay",
        type=_number(0, 100),
        default=0,
        metavar="D",
        help="rounds of a loop before widening, 0 to 100 (default 0)",
    )
    group.add_argument(
        "--budget", type=_number(1, 10_000), metavar="N", help="rounds of a loop at most, 1 to 10,000 (default 100)"
    )
    group.add_argument(
        "--jobs",
        "-j",
        type=_number(1, MOST_JOBS),
        default=_processors(),
        metavar="N",
        help="files checked side by side (default: the processors)",
    )
    group.add_argument(
        "--cluster",
        metavar="ADDRESS",
        help="let the workers of this Dask scheduler check, as tcp://HOST:8786; --program, if any, is theirs",
    )
    group.add_argument(
        "--memory",
        type=_number(16, 1_048_576),
        default=2048,
        metavar="MIB",
        help="memory of each server at most, in MiB (default 2048)",
    )
    group.add_argument(
        "--timeout",
        type=_number(1, 1_000_000),
        default=600,
        metavar="S",
        help="seconds for a file at most, after which it counts as not checked (default 600)",
    )
    group.add_argument("--program", metavar="PATH", help=PROGRAM_HELP)


def _choice(
    group: argparse._ActionsContainer, name: str, words: tuple[str, ...], *names: str, **more: object
) -> None:
    """Adds an option whose value is one of some words."""
    group.add_argument(name, *names, type=_one_of(words), choices=words, **more)  # type: ignore[arg-type]


def _processors() -> int:
    """How many processors this process may use."""
    return min(len(os.sched_getaffinity(0)) if hasattr(os, "sched_getaffinity") else os.cpu_count() or 1, MOST_JOBS)


def _number(low: int, high: int) -> Callable[[str], int]:
    """Reads a number from `low` to `high`, in decimal digits."""

    def read(word: str) -> int:
        if word.isascii() and word.isdigit() and len(word) <= 7 and low <= int(word) <= high:
            return int(word)
        raise argparse.ArgumentTypeError(f"a number from {low} to {high} is wanted, and not `{word}`")

    return read


def _one_of(words: tuple[str, ...]) -> Callable[[str], str]:
    """Reads one of some words."""

    def read(word: str) -> str:
        return _known(word, words)

    return read


def _known(word: str, words: Iterable[str]) -> str:
    """One of some words."""
    if word in words:
        return word
    raise argparse.ArgumentTypeError(f"`{word}` is none of {', '.join(words)}{meant(word, words)}")


def _inputs(word: str) -> tuple[int, ...]:
    """Numbers of 64 bits with commas between them; an empty word is of none."""
    try:
        found = tuple(int(it) for it in word.split(",") if word)
    except ValueError:
        found = (2**63,)
    if all(-(2**63) <= it < 2**63 for it in found):
        return found
    raise argparse.ArgumentTypeError(f"numbers of 64 bits with commas between them are wanted, and not `{word}`")


def _list_of_words(word: str) -> list[str]:
    """Words with commas between them."""
    return [it for it in word.split(",") if it]


def _rules(word: str) -> frozenset[str]:
    """Rules with commas between them."""
    return frozenset(_known(it.strip(), RULES) for it in word.split(","))
