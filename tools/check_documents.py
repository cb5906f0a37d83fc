#!/usr/bin/env python3
"""Checks what the documents say of the repository: check_documents.py [--words].

Each link leads to a file, and to a heading of it. Each name in backticks is declared somewhere: in a crate, a script,
the protocol or the language; where a document says "`name` of `crate`", in that crate. Each row of docs/THEOREM.md, and
each link that names clauses, names a function of that file that promises these clauses; a row is marked as a law exactly where
its function takes no arguments. Each request of the protocol has an example. Each block of code is run, or is marked as
one that is not. CHANGELOG.md begins with the version of the project. All documents together stay below a number of words;
`--words` prints how many each has.
"""
from __future__ import annotations

import fnmatch
import json
import os
import re
import sys
from functools import cache
from glob import glob
from typing import Iterable, Iterator

sys.dont_write_bytecode = True

import crate_list
import dependencies
import draw_graph
import run_sessions
from clauses import clause_fault, law_fault
from kit import ROOT, listed
from tally import Tally

MOST_WORDS = 15_000
EDITOR = "editors/README.md"
VERSION_FILE = "editors/daig_editor/__init__.py"
SERVING = "crates/daig_server/src/serving.rt"
RUN_BY_THE_EDITOR = {"README.md": "$ ./daig-check", "docs/CHECK.md": "./daig-check"}
LINK = re.compile(r"!?\[((?:[^\[\]]|\[[^\]]*\])*)\]\(([^()\s]+)\)")
SPAN = re.compile(r"`([^`\n]+)`")
WORD = re.compile(r"[A-Za-z_][\w-]*")
OF_CRATE = re.compile(r"`([\w-]+)` of(?: crate)? `(\w+)`")
CLAUSES = re.compile(r"^`(\w+)`: (`\w+`(?:, `\w+`)*)$")
FENCE = re.compile(r"^```(.*)$")
CODE_ENDINGS = (".rt", ".antt", ".py", ".sh", ".js", ".lua", ".mk", ".edit", ".md", ".imp", ".txt", ".json")
# Words of other programs, and of the toolchain, of which the documents speak.
OUTSIDE = """
 rt check lib ci test lemma must-fail plant fmt tidy doc expand start FN allow-holes only module function rust text
 requires ensures returns search omega record rules std using tactic auto unfolding NAME WORD goal ulimit find make clang
 git python3 serde_json json fast_float clap thiserror itoa indexmap slab smallvec lru llvm path cache local daig DAIG_PROGRAM PATH
 vim opt runtimepath prepend require setup true src wildcard patsubst make_mut Type impl
 clean-imp daig_no_server eglot-server-programs init.lua toml tests measure_typing x.imp mypy nvim
""".split()


@cache
def read(path: str) -> str:
    with open(f"{ROOT}/{path}", encoding="utf-8") as text:
        return text.read()


@cache
def documents() -> tuple[str, ...]:
    """README, CONTRIBUTING, CHANGELOG, and what stands in docs/."""
    return tuple(run_sessions.all_documents())


@cache
def prose(document: str) -> list[tuple[int, str]]:
    """The lines of a document without its blocks of code, by their numbers."""
    found, is_inside = [], False
    for number, line in enumerate(read(document).split("\n"), 1):
        if FENCE.match(line):
            is_inside = not is_inside
        elif not is_inside and not line.startswith(run_sessions.INDENT):
            found.append((number, line))
    return found


def whole_prose(document: str) -> str:
    """The same as one text, with each line's end as a space, so that what a line break parts is found."""
    return " ".join(line for _, line in prose(document))


# ---- what the repository declares

DECLARED_IN_RT = re.compile(
    r"\b(?:fn|struct|enum|trait|mod|const|type|ghost|ensures\*?|requires)\s+([A-Za-z_]\w*)"
    r"|^\s+(?:pub(?:\(\w+\))? )?(\w+)(?=[:({,]| \{)",
    re.M,
)
DECLARED_IN_ANTT = re.compile(
    r"^\s*(?:(?:unfoldable|abbrev|pub|data|record|module|instance)\s+)*([A-Za-z_][\w-]*)\s+(?:\(|\{|:)"
    r"|^\s*(?:pub )?(?:data|record|mod) (\w+)",
    re.M,
)
DECLARED_IN_SCRIPTS = re.compile(r"\b(?:def|class|function|local)\s+(\w+)|^\s*(\w+)\s*(?:=|:)", re.M)
TEXT = re.compile(r'"((?:[^"\\\n]|\\.)*)"')
COMMENT = re.compile(r"(?m)//.*$|^\s*--.*$")


def words_of(texts: Iterable[str]) -> set[str]:
    """All words of some texts."""
    return {word for text in texts for word in WORD.findall(text)} | {text.strip("- ") for text in texts}


def declared(path: str) -> set[str]:
    """The names that a file declares, and the words of its texts."""
    text = read(path)
    names: set[str] = set()
    if path.endswith((".rt", ".antt")):
        text = COMMENT.sub("", text)
        form = DECLARED_IN_RT if path.endswith(".rt") else DECLARED_IN_ANTT
    else:
        form = DECLARED_IN_SCRIPTS
    for found in form.findall(text):
        names.update(it for it in found if it)
    return names | words_of(TEXT.findall(text))


@cache
def files() -> list[str]:
    """The files of the repository, without what is built."""
    found: list[str] = []
    for folder, folders, names in os.walk(ROOT):
        folders[:] = [it for it in folders if it not in ("out", ".git", "__pycache__")]
        found += [os.path.relpath(f"{folder}/{it}", ROOT) for it in names]
    return found


@cache
def names_of(crate: str) -> set[str]:
    """The names that a crate declares."""
    folders = tuple(f"crates/{crate}/{it}/" for it in ("src", "specs", "proofs"))
    ours = [it for it in files() if it.startswith(folders) and it.endswith((".rt", ".antt"))]
    return {name for it in ours for name in declared(it)}


@cache
def known() -> set[str]:
    """The names that are declared anywhere, with those of other programs."""
    names = set(OUTSIDE)
    for crate in listed():
        names |= names_of(crate) | {crate}
    for path in files():
        is_ours = path.startswith(("tools/", "editors/", "bench/")) and "/tests/" not in path
        if is_ours and path.endswith((".py", ".sh", ".js", ".json", ".lua", ".mk")):
            names |= declared(path)
        names.update(path.split("/"))
    return names


# ---- links

def slug(heading: str) -> str:
    """The anchor of a heading."""
    return re.sub(r"[^\w\- ]", "", heading.strip().lower()).replace(" ", "-")


def anchors(document: str) -> set[str]:
    return {slug(line.lstrip("#")) for _, line in prose(document) if line.startswith("#")}


def link_faults(document: str) -> Iterator[str]:
    """The links that lead nowhere."""
    for _, target in LINK.findall(whole_prose(document)):
        if re.match(r"\w+://", target):
            continue
        path, _, anchor = target.partition("#")
        there = os.path.normpath(os.path.join(os.path.dirname(document), path)) if path else document
        if not os.path.exists(f"{ROOT}/{there}"):
            yield f"{target} is no file"
        elif anchor and (not there.endswith(".md") or anchor not in anchors(there)):
            yield f"{target} is no heading"


# ---- names

def is_path(document: str, word: str) -> bool:
    """Whether a word is a file or folder: of the repository, beside the document, of a crate, or one that is made."""
    rest = word.rstrip("/")
    beside = os.path.dirname(document)
    places = (rest, f"{beside}/{rest}", f"{beside}/*/{rest}", f"crates/{rest}", f"crates/*/{rest}")
    is_there = any(glob(f"{ROOT}/{it}") for it in places) or bool(fnmatch.filter(files(), rest))
    return is_there or rest in made_files() | known() or rest.startswith("PATH/")


@cache
def made_files() -> set[str]:
    """The files that the documents' sessions make."""
    made: set[str] = set()
    for document in documents():
        for begun, above, block in run_sessions.blocks(read(document)):
            told = run_sessions.commands(begun, block)
            named = run_sessions.FILE.search(above)
            made |= {it[1] for command in told for it in re.finditer(r"> (\S+)$", command.words)}
            made |= {named[1]} if named and not told else set()
    return made


def is_known(word: str) -> bool:
    """Whether a word is declared. Short ones stand for values, as `n` or `at`, and so do those in capitals."""
    if len(word) < 3 or word.isupper() or "NAME" in word or word in known() or word.strip("-_") in known():
        return True
    return "-" in word and all(is_known(it) for it in word.split("-"))


def unknown_in(document: str, span: str) -> Iterator[str]:
    """What a span of code names that is not declared."""
    if span.startswith("{") and span.endswith("}"):
        span = re.sub(r'[^"\w]+', " ", span)
    for word in span.split():
        word = word.strip("[](){},;")
        looks_like_path = "/" in word and re.fullmatch(r"[.~]?[\w./*-]+", word) or word.endswith(CODE_ENDINGS)
        if looks_like_path and not word.startswith("//"):
            is_pattern = word.startswith("~") or re.search(r"\b[A-Z]{4,}\b", word.removesuffix(".md"))
            if not is_pattern and not is_path(document, word.removeprefix("./")):
                yield word
            continue
        yield from (it for it in WORD.findall(word) if not is_known(it))


def name_faults(document: str) -> Iterator[str]:
    """The names in backticks that are declared nowhere."""
    for number, line in prose(document):
        for span in SPAN.findall(LINK.sub(lambda it: it[1], line)):
            unknown = list(unknown_in(document, span))
            if unknown:
                yield f"{number}: `{span}`: {', '.join(unknown)}"
    for block in re.findall(r"^```text\n(.*?)^```", read(document), re.M | re.S):
        yield from (f"{it} in a block" for it in re.findall(r"\b[a-z]+(?:_[a-z]+)+\b", block) if not is_known(it))
    for name, crate in OF_CRATE.findall(whole_prose(document)):
        if crate in listed() and name not in names_of(crate) | set(listed()):
            yield f"`{name}` is not declared in `{crate}`"


# ---- clauses

def fault_in_file(path: str, function: str, clauses: Iterable[str]) -> str:
    """What a file lacks of a function that promises these clauses."""
    if not os.path.exists(f"{ROOT}/{path}"):
        return f"{path} is no file"
    fault = clause_fault(read(path), function, clauses)
    return f"{path}: {fault}" if fault else ""


def clause_links(document: str) -> Iterator[tuple[str, str, list[str]]]:
    """The links of a document that name a function and its clauses."""
    for words, target in LINK.findall(whole_prose(document)):
        found = CLAUSES.match(words)
        if found:
            path = os.path.normpath(os.path.join(os.path.dirname(document), target))
            yield path, found[1], re.findall(r"\w+", found[2])


def theorem_rows() -> Iterator[tuple[str, str, list[str], bool]]:
    """The rows of the claims: file, function, clauses, and whether it is marked as a law, as the row above where it
    goes on."""
    is_law = False
    for _, line in prose("docs/THEOREM.md"):
        parts = [it.strip() for it in line.strip().removeprefix("|").removesuffix("|").split("|")]
        links = LINK.findall(parts[-1]) if len(parts) == 4 else []
        functions = SPAN.findall(parts[1]) if links else []
        if len(functions) == 1:
            is_law = bool(re.search(r"\(laws?\)$", parts[0])) if parts[0] else is_law
            yield os.path.normpath(f"docs/{links[0][1]}"), functions[0], SPAN.findall(parts[2]), is_law


def definitions_of(path: str) -> Iterator[str]:
    """The files of definitions that a file's contracts name, without those of std and of types of code."""
    for crate, module in re.findall(r"^ghost use Rattle\.(\w+)\.specs\.((?:\w+\.)*\w+)\.\{", read(path), re.M):
        if crate != "std" and not module.startswith("declared."):
            yield f"crates/{crate}/specs/{module.replace('.', '/')}.antt"


def unlisted_definitions() -> list[str]:
    """The definitions that the contract of `serve` names, and that docs/THEOREM.md has no link to."""
    links = {os.path.normpath(f"docs/{target}") for _, target in LINK.findall(whole_prose("docs/THEOREM.md"))}
    return sorted(set(definitions_of(SERVING)) - links)


# ---- blocks, requests, words

def block_faults(document: str) -> Iterator[str]:
    """The blocks of code that nothing runs and that are not marked so."""
    opened = ""
    first: str | None = None
    for number, line in enumerate(read(document).split("\n"), 1):
        fence = FENCE.match(line)
        if fence and not opened:
            opened, first = fence[1] or "run", None
        elif fence:
            opened = ""
        elif opened == "run" and first is None:
            first = line
            if RUN_BY_THE_EDITOR.get(document, "?") not in line or not line.startswith("$ "):
                yield f"{number}: this block is run by nothing, and is not marked as text"
    for begun, above, block in run_sessions.blocks(read(document)):
        if not run_sessions.commands(begun, block) and not run_sessions.FILE.search(above):
            yield f"{begun}: this block is no session and no file"


def diagram_faults(text: str) -> Iterator[str]:
    """What the first diagram of a text says stands on what, and does not."""
    known_crates = listed()
    diagram = re.search(r"^```text\n(.*?)^```", text, re.M | re.S)
    for chain in re.split(r"[;\n]", diagram[1] if diagram else ""):
        groups = [re.findall(r"\b[a-z]\w+", part) for part in chain.split(" > ")]
        for above, below in zip(groups, groups[1:]):
            on = known_crates.get(above[-1], ())
            yield from (f"{above[-1]} does not stand on {it}" for it in below if it not in on)


def requests_shown() -> Iterator[str]:
    """The requests that the protocol's sessions ask."""
    for begun, _, block in run_sessions.blocks(read("docs/PROTOCOL.md")):
        for command in run_sessions.commands(begun, block):
            for line in command.lines:
                found = run_sessions.EXCHANGE.fullmatch(line)
                if found:
                    yield json.loads(found[1])["do"]


def requests_told() -> Iterator[str]:
    """The requests of the protocol's table."""
    begin = next(i for i, (_, line) in enumerate(prose("docs/PROTOCOL.md")) if line.startswith("| `do` |"))
    for _, line in prose("docs/PROTOCOL.md")[begin + 2 :]:
        if not line.startswith("|"):
            break
        yield from SPAN.findall(line.split("|")[1])


def requests_read() -> list[str]:
    """The requests that are read."""
    return re.findall(r'^ +"(\w+)" => Some\(Verb::', read("crates/request_json/src/names.rt"), re.M)


def version_fault(changes: str, version: str) -> str:
    """What is wrong with the first version that a list of changes tells of."""
    told = re.search(r"(?m)^## (\S+)$", changes)
    return "" if told and told[1] == version else f"{told[1] if told else 'none'} in place of {version}"


def project_version() -> str:
    found = re.search(r'(?m)^VERSION = "(.*)"$', read(VERSION_FILE))
    return found[1] if found else ""


def word_count(text: str) -> int:
    """The words of a text: what has a letter or a digit, without the targets of links."""
    return sum(bool(re.search(r"\w", it)) for it in re.sub(r"\]\([^)]*\)", "]", text).split())


def note_all(tally: Tally, name: str, faults: Iterable[str]) -> None:
    found = list(faults)
    tally.note(name, "\n    ".join(["", *found]) if found else "")


def main(words: list[str]) -> int:
    if words not in ([], ["--words"]):
        print("usage: check_documents.py [--words]", file=sys.stderr)
        return 2
    counts = {it: word_count(read(it)) for it in documents()}
    if words:
        print("\n".join(f"{count:>6} {it}" for it, count in counts.items()))
    tally = Tally()
    for document in (*documents(), EDITOR):
        note_all(tally, f"links of {document}", link_faults(document))
        note_all(tally, f"names of {document}", name_faults(document))
        for path, function, clauses in clause_links(document):
            tally.note(f"{document}: {function}", fault_in_file(path, function, clauses))
    for document in documents():
        note_all(tally, f"blocks of {document}", block_faults(document))
    for path, function, clauses, is_law in theorem_rows():
        fault = fault_in_file(path, function, clauses) or law_fault(read(path), function, is_law)
        tally.note(f"docs/THEOREM.md: {function}", fault)
    note_all(tally, "the theorem's definitions are listed", unlisted_definitions())
    note_all(tally, "the diagram of layers", diagram_faults(read("docs/ARCHITECTURE.md")))
    told = set(requests_told())
    tally.note("the requests are those that are read", " ".join(sorted(told ^ set(requests_read()))))
    tally.note("each request has an example", " ".join(sorted(told ^ set(requests_shown()))))
    for name, fault in (*crate_list.faults(), *dependencies.faults()):
        tally.note(name, fault)
    made = ((crate_list.DOCUMENT, crate_list.document), (draw_graph.DOCUMENT, draw_graph.drawing))
    for document, make in made:
        tally.note(f"{document} is made by its script", "" if read(document) == make() else "run the script")
    tally.note("CHANGELOG.md begins with the version", version_fault(read("CHANGELOG.md"), project_version()))
    total = sum(counts.values())
    print(f"{total:,} words, at most {MOST_WORDS:,}")
    tally.note("the number of words", "" if total <= MOST_WORDS else f"{total:,} are more than {MOST_WORDS:,}")
    return tally.end()


if __name__ == "__main__":
    sys.exit(main(sys.argv[1:]))
