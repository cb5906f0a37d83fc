"""What daig-check's status says, and that nothing that goes wrong leaves a file looking clean."""
from __future__ import annotations

import asyncio
import json
import os
import resource
import signal
import subprocess
import sys
import time
from pathlib import Path
from typing import Callable

from daig_editor.server.child import started
from tests.check_tool import DEAD, LOOPS, NO_PROGRAM, SAFE, TOOL, UNSAFE, check, check_process, dying, folder, script
from tests.program import program
from tests.random_sources import slow_source

# Answers once, and never again.
HANGING = """
import os, sys, time
open('started', 'w').write(str(os.getpid()))
sys.stdin.readline()
print('{"cost":0,"kept":0}', flush=True)
time.sleep(300)
"""


def test_statuses() -> None:
    """0 where nothing may fail, 1 for a finding, 2 for a file that is no program; the highest wins."""
    with folder(a_imp=SAFE, b_imp=UNSAFE, c_imp=NO_PROGRAM, d_imp=DEAD) as here:
        assert check("a.imp", where=here) == (
            0, "", "1 file, 1 check: 1 safe, 0 may fail, 0 never reached; no run can fail\n"
        )
        assert check("a.imp", "b.imp", where=here).status == 1
        found = check("a.imp", "b.imp", "c.imp", where=here)
        assert found.status == 2 and "; 1 file could not be checked" in found.err, found
        assert check("d.imp", where=here).status == 0 and check("--dead", "d.imp", where=here).status == 1
        assert check("--quiet", "a.imp", where=here) == (0, "", "")
        over = check("--budget", 1, "--domain", "interval", "-", where=here, text=LOOPS)
        assert over.status == 1 and "3 checks after it are not known" in over.out, over
        assert "1 may fail" not in over.err and "3 not known" in over.err, over


def test_files() -> None:
    """Files are told in the order of the words, each once; what is not there is said."""
    with folder(a_imp=UNSAFE, b_imp=UNSAFE) as here:
        (here / "below").mkdir()
        (here / "below/c.imp").write_text(UNSAFE)
        (here / "below/d.txt").write_text("nothing")
        (here / "empty").mkdir()
        found = check("--format", "brief", "b.imp", "below", ".", "./a.imp", where=here)
        names = [it.split(":")[0] for it in found.out.splitlines()]
        assert names == ["b.imp", "below/c.imp", "./a.imp"], found
        found = check("--format", "brief", "a.imp", "none.imp", where=here)
        assert found.status == 2 and "none.imp:1:1: error: No such file or directory [run]" in found.out, found
        found = check("empty", where=here)
        assert found.status == 2 and "there is no file to check below this folder" in found.out, found
        (here / "below/gone.imp").symlink_to("nowhere")
        found = check("--format", "brief", "below", where=here)
        assert found.status == 2 and "below/gone.imp:1:1: error" in found.out, found
        found = check("-", where=here, text=UNSAFE)
        assert found.status == 1 and found.out.startswith("<stdin>:4:3: warning: "), found


def test_hostile_files() -> None:
    """Files that are long, endless, or no text at all are refused, and what they have never reaches the terminal."""
    with folder(a_imp="(" * 1_048_577, b_imp="\x1b[2J@", c_imp="", d_imp="(" * 100_000) as here:
        for name in ("a.imp", "b.imp", "c.imp", "d.imp", "/dev/zero", "/dev/null"):
            began = time.monotonic()
            found = check("--quiet", name, where=here)
            rule = "[run]" if name.startswith("/dev/") else "[source]"
            assert found.status == 2 and rule in found.out and "\x1b" not in found.out, (name, found.out[:500])
            assert time.monotonic() - began < 60, name
        (here / "e.imp").write_bytes(SAFE.encode() + b"// \xff\xfe\x00\n")
        assert check("e.imp", where=here).status == 0
        forged = here / "x.imp:1:1: note\n\x1b[31mforged.imp"
        forged.write_text(UNSAFE)
        found = check("--format", "brief", ".", where=here)
        assert len(found.out.splitlines()) == 5 and "\\x0a\\x1b[31mforged.imp:4:3: warning" in found.out, found.out[
            :2000
        ]
        (here / os.fsdecode(b"\xe9.imp")).write_text(UNSAFE)
        for form in ("brief", "json", "sarif", "html"):
            assert check("--format", form, os.fsdecode(b"\xe9.imp"), where=here).status == 1, form
        # Bytes and characters of a name that a terminal obeys are spelled out, in JSON as JSON does.
        strange = here / os.fsdecode("\u202e\u2028".encode() + b"\x9b.imp")
        strange.write_text(UNSAFE)
        text = check("--format", "brief", strange.name, where=here).out
        assert text.startswith("\\u202e\\u2028\\x9b.imp:4:3: "), text
        for form in ("json", "sarif"):
            told = check("--format", form, strange.name, where=here).out
            assert not {"\u202e", "\u2028", "\x9b"} & set(told) and json.loads(told), told
        objects = check("--format", "json", strange.name, where=here).objects
        assert objects[0]["file"] == "\u202e\u2028\ufffd.imp", objects


def test_lost_servers() -> None:
    """A server that is not there, ends, or says what no server says leaves no file looking clean."""
    with folder(a_imp=SAFE, b_imp=UNSAFE) as here:
        for lines in range(6):
            for status in (0, 6) if lines == 2 else (1,):
                stub = dying(here, lines, status)
                found = check("--program", stub, "b.imp", where=here)
                assert found.status == 2 and "[run]" in found.out and "1 file could not be checked" in found.err, found
            if lines < 3:
                found = check("--program", dying(here, lines, 0), "a.imp", where=here)
                assert found.status == 2 and " error: " in found.out, (lines, found)
        for name in ("/no/such/program", "true", "false", "cat", "/", "yes"):
            found = check("--program", name, "a.imp", where=here)
            assert found.status == 2 and "a.imp:1:1: error: " in found.out, (name, found)
        for reply in ('{"report":[],"state":"any","cost":0,"kept":0}', "[]", "{", '{"cost":0,"kept":0}', "[" * 10_000):
            stub = script(here, f"import sys\nfor line in sys.stdin: print({reply!r}, flush=True)")
            found = check("--program", stub, "a.imp", where=here)
            assert found.status == 2 and "[run]" in found.out, (reply, found)


def test_failed_writes() -> None:
    """A report that is not written as a whole is status 2, and what was there before stays."""
    with folder(a_imp=UNSAFE) as here:
        found = check("--output", "/dev/full", "a.imp", where=here)
        assert found.status == 2 and "could not be written: No space left on device" in found.err, found
        assert check("--output", "none/report", "a.imp", where=here).status == 2
        found = check("--output", "a.imp", "a.imp", where=here)
        assert found.status == 2 and (here / "a.imp").read_text() == UNSAFE, found
        (here / "report").write_text("before")

        def bounded() -> None:
            """Lets no file have more than 300 bytes, as a disk that is full."""
            resource.setrlimit(resource.RLIMIT_FSIZE, (300, 300))

        found = check_process("--format sarif --output report a.imp", here, bounded)
        assert found.status == 2 and (here / "report").read_text() == "before", found
        assert sorted(it.name for it in here.iterdir()) == ["a.imp", "report"]
        assert check("--output", "report", "a.imp", where=here) == (1, "", check("a.imp", where=here).err)
        assert "[assert]" in (here / "report").read_text()
        (here / "report").chmod(0o640)
        (here / "link").symlink_to("report")
        assert check("--format", "json", "--output", "link", "a.imp", where=here).status == 1
        assert (here / "link").is_symlink() and (here / "report").stat().st_mode & 0o777 == 0o640
        assert (here / "report").read_text().startswith('{"file": "a.imp"')


def test_closed_streams() -> None:
    """Standard streams that are full or closed never make a status that says too little, nor a trace of Python's."""
    with folder(a_imp=UNSAFE) as here:
        streams = (("1>/dev/full", 2), ("1>&-", 2), ("2>/dev/full", 1), ("2>&-", 1), ("0<&-", 1), ("2>&- 1>&- 0<&-", 2))
        for words, status in streams:
            found = check_process(f"a.imp {words}", here)
            assert found.status == status and "Traceback" not in found.err and "Exception" not in found.err, (
                words,
                found,
            )
        found = check_process("- 0<&-", here)
        assert found.status == 2 and "standard input is closed" in found.out, found
        assert check_process("--help >/dev/full", here).status == 2
        assert check_process("--explain bounds >/dev/full", here).status == 2
        piped = check_process("--output /dev/stdout a.imp | cat; exit ${PIPESTATUS[0]}", here)
        assert piped.status == 1 and piped.out == check("--try", 32, "a.imp", where=here).out, piped
        found = check_process("--format sarif a.imp | true; exit ${PIPESTATUS[0]}", here)
        assert found.status in (1, 2) and not found.out and "Traceback" not in found.err, found


def test_interrupt() -> None:
    """A run that is ended leaves no report and no server, and its end can be seen."""
    with folder(a_imp=SAFE) as here:
        stub = script(here, "import os, time\nopen('started', 'w').write(str(os.getpid()))\ntime.sleep(300)")
        for number, more in ((signal.SIGTERM, 0), (signal.SIGINT, 0), (signal.SIGINT, 3)):
            words = [sys.executable, str(TOOL), "--program", str(stub), "--output", "report", "a.imp"]
            with subprocess.Popen(words, cwd=here, stderr=subprocess.PIPE) as process:
                started = here / "started"
                while not (started.exists() and started.read_text()):
                    time.sleep(0.02)
                for _ in range(1 + more):
                    process.send_signal(number)
                assert process.wait(60) == -number, (number, process.returncode)
            pid = int(started.read_text())
            started.unlink()
            assert not Path(f"/proc/{pid}").exists(), "the server runs on"
            assert sorted(it.name for it in here.iterdir()) == ["a.imp", "program"]


def test_one_job_and_eight() -> None:
    """The output has the same bytes whatever runs side by side."""
    texts = {f"f{k}_imp": (SAFE, UNSAFE, DEAD, NO_PROGRAM, LOOPS)[k % 5] for k in range(20)}
    with folder(**texts) as here:
        for form in ("text", "sarif"):
            one, eight = (check("--format", form, "--jobs", jobs, ".", where=here) for jobs in (1, 8))
            assert one == eight and one.status == 2 and one.out, (form, one, eight)


def test_one_file_by_many_names() -> None:
    """A file is known by what it is: no link and no `..` makes another one pass for it, and none is checked twice."""
    with folder(x_imp=SAFE) as here:
        (here / "o/d").mkdir(parents=True)
        (here / "o/x.imp").write_text(UNSAFE)
        (here / "link").symlink_to("o/d")
        (here / "again.imp").symlink_to("x.imp")
        (here / "hard.imp").hardlink_to(here / "x.imp")
        found = check("--format", "brief", "x.imp", "link/../x.imp", "again.imp", "./x.imp", "hard.imp", where=here)
        assert found.status == 1 and "2 files, 2 checks" in found.err, found
        assert found.out == "link/../x.imp:4:3: warning: the assertion may fail [assert]\n", found
        # A baseline of the one hides nothing of the other.
        assert check("--format", "sarif", "--output", "old.sarif", "link/../x.imp", where=here).status == 1
        (here / "x.imp").write_text(UNSAFE)
        assert check("--baseline", "old.sarif", "x.imp", where=here).status == 1
        assert check("--baseline", "old.sarif", "o/x.imp", where=here).status == 0


def test_linked_folders() -> None:
    """A folder that a link leads to is checked too, once; one that leads back ends."""
    with folder() as here:
        (here / "top/below").mkdir(parents=True)
        (here / "other").mkdir()
        (here / "other/a.imp").write_text(UNSAFE)
        (here / "top/below/b.imp").write_text(UNSAFE)
        (here / "top/link").symlink_to("../other")
        (here / "top/same").symlink_to("below")
        (here / "top/below/back").symlink_to("..")
        found = check("--format", "brief", "top", where=here)
        names = [it.partition(":")[0] for it in found.out.splitlines()]
        assert found.status == 1 and names == ["top/below/b.imp", "top/link/a.imp"], found


def test_a_file_that_is_called_as_standard_input() -> None:
    """A file of the name `<stdin>` is read, and standard input is not."""
    with folder() as here:
        (here / "<stdin>").write_text(UNSAFE)
        found = check("--format", "brief", "<stdin>", where=here, text=SAFE)
        assert found.status == 1 and found.out.startswith("./<stdin>:4:3: warning"), found
        found = check("--format", "json", "<stdin>", "-", where=here, text=UNSAFE)
        assert len({it["fingerprint"] for it in found.objects}) == 2, found


def test_what_is_no_file() -> None:
    """Pipes and devices are refused at once, by whatever name and wherever they stand."""
    with folder(a_imp=SAFE) as here:
        os.mkfifo(here / "b.imp")
        (here / "c.imp").symlink_to("/dev/zero")
        for words in ("b.imp", "c.imp", "/dev/tty", ".", "--against b.imp a.imp"):
            began = time.monotonic()
            found = check(*words.split(), where=here)
            assert found.status == 2 and "[run]" in found.out and time.monotonic() - began < 20, (words, found)


def test_a_program_that_hangs() -> None:
    """A program that does not answer is ended after a time, which is said, and the file does not look clean."""
    with folder(a_imp=SAFE, b_imp=SAFE) as here:
        stub = script(here, HANGING)
        found = check("--program", stub, "--timeout", 1, "--format", "brief", "a.imp", "b.imp", where=here)
        why = "it was not checked within 1 seconds; --timeout gives it more [run]"
        assert found.status == 2 and found.out.splitlines() == [f"{it}.imp:1:1: error: {why}" for it in "ab"], found
        pid = int((here / "started").read_text())
        assert not Path(f"/proc/{pid}").exists(), "the program runs on"


def test_stopped_while_it_waits() -> None:
    """A signal ends a run that waits for standard input, or for a reader of its report."""
    with folder(a_imp=UNSAFE) as here:
        os.mkfifo(here / "report")
        for words in (["-"], ["--output", "report", "a.imp"]):
            for number in (signal.SIGTERM, signal.SIGINT):
                command = [sys.executable, str(TOOL), *words]
                environment = {**os.environ, "DAIG_PROGRAM": program()}
                with subprocess.Popen(
                    command, cwd=here, env=environment, stdin=subprocess.PIPE, stderr=subprocess.PIPE
                ) as process:
                    assert process.stderr
                    wait_for(lambda: sleeps(process.pid))
                    process.send_signal(number)
                    assert process.wait(60) == -number, (words, number, process.returncode)
                    assert b"Traceback" not in process.stderr.read()


def sleeps(pid: int) -> bool:
    """Whether a process waits in a call of the system, some time after its start."""
    fields = Path(f"/proc/{pid}/stat").read_text().rpartition(")")[2].split()
    used = int(fields[11]) + int(fields[12])
    time.sleep(0.5)
    again = Path(f"/proc/{pid}/stat").read_text().rpartition(")")[2].split()
    return used > 5 and used == int(again[11]) + int(again[12]) and again[0] == "S"


def wait_for(holds: Callable[[], bool]) -> None:
    """Waits until something holds, for a minute at most."""
    until = time.monotonic() + 60
    while not holds():
        assert time.monotonic() < until, "it does not come to that"
        time.sleep(0.05)


def test_signals_of_writes() -> None:
    """A server sees a write that fails, and is not ended by a signal of it."""

    async def told() -> bytes:
        """What a program says of its signals."""
        words = ["grep", "SigIgn", "/proc/self/status"]
        process = await started(words, asyncio.subprocess.DEVNULL, asyncio.subprocess.PIPE)
        return (await process.communicate())[0]

    ignored = int(asyncio.run(told()).split()[1], 16)
    assert all(ignored >> (it - 1) & 1 for it in (signal.SIGPIPE, signal.SIGXFSZ)), ignored


def test_memory() -> None:
    """A server that wants more memory than it may have is told, and the file does not look clean."""
    with folder(a_imp=slow_source(60)) as here:
        found = check("--memory", 16, "--domain", "octagon", "a.imp", where=here)
        assert found.status == 2 and "too little memory" in found.out, found
