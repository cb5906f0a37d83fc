"""Runs daig-check for the tests: on files in a folder of its own, with the program or with one that behaves badly."""
from __future__ import annotations

import io
import json
import os
import subprocess
import sys
import tempfile
from contextlib import contextmanager
from pathlib import Path
from typing import Callable, Iterator, NamedTuple

from daig_editor.commands.check import main
from tests.program import program

TOP = Path(__file__).resolve().parents[2]
TOOL = TOP / "daig-check"
EXAMPLES = TOP / "crates/examples/data"
SAFE = "proc main() {\n  var i: int;\n  i = 3;\n  assert i == 3;\n}\n"
UNSAFE = "proc main() {\n  var i: int;\n  i = input;\n  assert i == 3;\n}\n"
DEAD = "proc main() {\n  var i: int;\n  if (i > 0) {\n    assert i == 3;\n  }\n}\n"
NO_PROGRAM = "proc main() {\n  x = 3;\n}\n"
LOOPS = (
    "proc main() {\n  var i: int;\n  var a: array;\n  a = array 10;\n"
    "  while (i < 10) {\n    a[i] = i;\n    i = i + 1;\n  }\n  assert i == 10;\n}\n"
)
# What is said of an assertion that holds in no run.
FAILS = "the assertion fails in every run that comes here"


class Ran(NamedTuple):
    """What a run of the tool gave."""

    status: int
    out: str
    err: str

    @property
    def objects(self) -> list[dict[str, object]]:
        """The lines of the output as JSON objects."""
        return [json.loads(it) for it in self.out.splitlines()]


@contextmanager
def folder(**files: str) -> Iterator[Path]:
    """A folder with these files, of which each `_` before `imp` is a dot."""
    with tempfile.TemporaryDirectory() as name:
        for file, text in files.items():
            (Path(name) / file.replace("_imp", ".imp")).write_bytes(text.encode())
        yield Path(name)


def check(*words: object, where: Path, text: str = "") -> Ran:
    """Runs the tool within this process, in a folder, with a text as its standard input; with no runs by default."""
    streams = sys.stdin, sys.stdout, sys.stderr
    before, environment = os.getcwd(), os.environ.copy()
    out, err = io.BytesIO(), io.StringIO()
    os.chdir(where)
    os.environ["DAIG_PROGRAM"] = program()
    sys.stdin = io.TextIOWrapper(io.BytesIO(text.encode()))
    sys.stdout, sys.stderr = io.TextIOWrapper(out), err
    try:
        status = main(["--try", "0", *(str(it) for it in words)])
    except SystemExit as ended:
        status = int(ended.code or 0)
    finally:
        sys.stdout.flush()
        written = out.getvalue()
        sys.stdin, sys.stdout, sys.stderr = streams
        os.chdir(before)
        os.environ.clear()
        os.environ.update(environment)
    return Ran(status, written.decode("utf-8", "surrogateescape"), err.getvalue())


def check_process(words: str, where: Path, before: Callable[[], None] | None = None) -> Ran:
    """Runs the tool as a process of a shell, whose words may redirect its streams."""
    environment = {**os.environ, "DAIG_PROGRAM": program()}
    command = f"'{sys.executable}' '{TOOL}' {words}"
    done = subprocess.run(
        ["bash", "-c", command], cwd=where, env=environment, capture_output=True, timeout=300, preexec_fn=before
    )
    return Ran(done.returncode, done.stdout.decode("utf-8", "surrogateescape"), done.stderr.decode("utf-8", "replace"))


def script(where: Path, text: str) -> Path:
    """A program written in Python, for the place of `daig`."""
    path = where / "program"
    path.write_text(f"#!{sys.executable}\n{text}")
    path.chmod(0o755)
    return path


# A program that answers as `daig` does, but ends in the midst of so many lines.
DYING = """
import subprocess, sys
served = subprocess.Popen([{program!r}, *sys.argv[1:]], stdin=subprocess.PIPE, stdout=subprocess.PIPE)
for number in range({lines}):
    line = sys.stdin.buffer.readline()
    if not line:
        break
    served.stdin.write(line)
    served.stdin.flush()
    sys.stdout.buffer.write(served.stdout.readline())
    sys.stdout.buffer.flush()
served.kill()
sys.exit({status})
"""


# A program that knows no request `faults`.
OLDER = """
import subprocess, sys
served = subprocess.Popen([{program!r}, *sys.argv[1:]], stdin=subprocess.PIPE, stdout=subprocess.PIPE)
for line in sys.stdin.buffer:
    reply = b'{{"refused":3}}\\n'
    if b'"faults"' not in line:
        served.stdin.write(line)
        served.stdin.flush()
        reply = served.stdout.readline()
    sys.stdout.buffer.write(reply)
    sys.stdout.buffer.flush()
served.kill()
"""


def dying(where: Path, lines: int, status: int) -> Path:
    """A server that ends after so many answers, with this status."""
    return script(where, DYING.format(program=program(), lines=lines, status=status))
