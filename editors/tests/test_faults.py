"""What once went wrong with servers, texts, states and calls: nothing ends the work, nothing looks safe that is not."""
from __future__ import annotations

import sys
import tempfile
import time
from pathlib import Path

from daig_editor.language.text import TextReader
from daig_editor.language.tokens import Fault
from daig_editor.language.words import state_lines
from tests.client import Client, Json, framed
from tests.program import program
from tests.small import FAILING, URI, at, codes, hover, kill_servers, opened, script, servers

CALLS = (
    "proc f(x: int) -> r: int {\n  r = x;\n}\n"
    "proc main() {\n  var a: int;\n  a = call f(1);\n  a = call f(5);\n}\n"
)


# ---------------------------------------------------------------------------------------------------------------------
# Lost servers


def test_lost_and_layout_changed() -> None:
    """A server that dies before a change of layout is started anew: the warning stays."""
    client, told = opened({}, FAILING)
    assert codes(told) == ["assert"]
    kill_servers(client)
    client.change(URI, 2, [{"text": FAILING + "// more\n"}])
    assert codes(client.diagnostics(2)) == ["assert"]
    client.close()


def test_lost_while_idle() -> None:
    """A server that dies while nothing is asked is started anew at once, and hovers are answered."""
    client, _ = opened({}, FAILING)
    client.published(1, lambda told: told[0]["severity"] == 1)  # a run that fails was found: the text rests
    before = servers(client)
    kill_servers(client)
    client.diagnostics(1)
    assert servers(client) != before and len(servers(client)) == 1
    assert "i ≤ 2" in hover(client, 3, 4)
    client.close()


def test_lost_for_good() -> None:
    """A program that dies at each question is an error at the first line, and no empty list."""
    with tempfile.TemporaryDirectory() as folder:
        dying = script(folder, 'read line; echo \'{"cost":0,"kept":0}\'; read line; exit 5\n')
        client, told = opened({"daig": dying}, FAILING)
        assert [(it["severity"], it["range"]["start"]["line"]) for it in told] == [(1, 0)], told
        assert "output failed" in told[0]["message"] and len(client.shown) == 1
        client.change(URI, 2, [{"text": FAILING + "\n"}])
        assert [it["severity"] for it in client.diagnostics(2)] == [1]
        client.close()


def test_incomplete_report() -> None:
    """A report that leaves checks out makes no text look safe."""
    with tempfile.TemporaryDirectory() as folder:
        for report in ("[]", '[{"check":"assert","id":1,"verdict":"safe"},{"check":"assert","id":1,"verdict":"safe"}]'):
            faults = report.replace("check", "fault")
            reply = f'{{"report":{report},"faults":{faults},"state":"any","cost":0,"kept":0}}'
            stub = script(folder, f"while read line; do echo '{reply}'; done\n")
            text = FAILING.replace("assert", "assert i < 9;\n  assert")
            client, told = opened({"daig": stub}, text)
            assert [it["severity"] for it in told] == [1] and "report is not of this program" in told[0]["message"], told
            client.close()


def test_server_that_hangs() -> None:
    """A server that does not answer is ended after a time, and started anew; the text does not look safe meanwhile."""
    with tempfile.TemporaryDirectory() as folder:
        stub = script(folder, 'read line; echo \'{"cost":0,"kept":0}\'; sleep 300\n')
        client, told = opened({"daig": stub, "patience": 1}, FAILING)
        assert [it["severity"] for it in told] == [1], told
        assert "it did not answer within 1 seconds" in told[0]["message"] and not servers(client), told
        client.close()


def test_lost_program() -> None:
    """Where the program itself is gone, a server that dies leaves an error."""
    with tempfile.TemporaryDirectory() as folder:
        copy = script(folder, f'exec {program()} "$@"\n')
        client, told = opened({"daig": copy}, FAILING)
        assert codes(told) == ["assert"]
        Path(copy).unlink()
        kill_servers(client)
        told = client.published(1, lambda told: codes(told) == ["trouble"])
        assert "cannot be asked" in told[0]["message"] and told[0]["severity"] == 1
        client.close()


def test_full_disk() -> None:
    """Where no file can be written, that is an error, and no clean text."""
    with tempfile.TemporaryDirectory() as folder:
        client = Client({"daig": program()}, environment={"TMPDIR": folder + "/gone", "HOME": folder}, file_size=0)
        client.open(URI, FAILING)
        told = client.diagnostics(1)
        assert codes(told) == ["trouble"] and told[0]["severity"] == 1, told
        client.close()


def test_endless_reply() -> None:
    """A program whose output has no end of a line is given up at a bounded length."""
    with tempfile.TemporaryDirectory() as folder:
        endless = script(folder, "yes | tr -d '\\n'\n")
        client, told = opened({"daig": endless}, FAILING)
        assert codes(told) == ["trouble"] and "bytes" in told[0]["message"], told
        assert _memory(client.process.pid) < 600
        client.close()


def test_no_reply() -> None:
    """What says other things than replies is no server."""
    with tempfile.TemporaryDirectory() as folder:
        for text in ("cat\n", "echo hello\n", "echo '[1'\n", "echo 1\n", "exit 0\n", "true\n"):
            client, told = opened({"daig": script(folder, text)}, FAILING)
            assert codes(told) == ["trouble"] and told[0]["severity"] == 1, (text, told)
            client.close()


def _memory(pid: int) -> int:
    """The most memory that a process took, in MiB."""
    lines = Path(f"/proc/{pid}/status").read_text().splitlines()
    return int(next(it.split()[1] for it in lines if it.startswith("VmHWM"))) // 1024


def test_memory() -> None:
    """A server that needs more than its limit ends, and the place of the work says so."""
    variables = "".join(f"  var x{k}: int;\n" for k in range(16))
    loops = "".join(f"  while (x{k} < x{k + 1}) {{ x{k} = x{k} + 1;\n" for k in range(15))
    text = f"proc main() {{\n{variables}  x0 = 1;\n{loops}{'}' * 15}\n  assert x0 < 2;\n}}\n"
    client = Client({"daig": program(), "memory": 1, "domain": "octagon"})
    client.open(URI, text)
    told = client.published(1, lambda told: codes(told) == ["trouble"])
    assert "1 MiB" in told[0]["message"] and told[0]["severity"] == 1, told
    assert told[0]["range"]["start"]["line"] == 18, told
    client.change(URI, 2, [{"text": FAILING}])
    assert codes(client.diagnostics(2)) == ["assert"]
    client.close()


# ---------------------------------------------------------------------------------------------------------------------
# States in words


def test_lengths() -> None:
    """A length is not taken for a variable of the name `len_a`."""
    assert state_lines("len_a=[3,4] #a=[0,1000000]") == ["3 ≤ len_a ≤ 4"]
    assert state_lines("len_a=[0,1000000] #a=[7,7]") == ["0 ≤ len_a ≤ 1000000, len a = 7"]
    assert state_lines("len_a=[1,2] #a=[1,5] len_a-#a<=-1") == ["1 ≤ len_a ≤ 2, 1 ≤ len a ≤ 5, len_a < len a"]
    assert state_lines("#a=[0,0]") == ["len a = 0"]
    text = "proc main() {\n  var len_a: int;\n  var a: array;\n  a = array 5;\n  len_a = 7;\n}\n"
    client, _ = opened({}, text)
    assert "- **after:** len_a = 7, len a = 5" in hover(client, 4, 3), hover(client, 4, 3)
    client.close()


def test_product_without_lists() -> None:
    """A product says nothing of lists where there are none."""
    assert state_lines("x=[1,1] & any") == ["x = 1"] and state_lines("any & any") == ["no variables"]
    assert state_lines("x=[min,max] & p=nil") == ["p = null"] and state_lines("none & any") == ["never reached"]
    client, _ = opened({}, FAILING)
    assert "no variables" not in hover(client, 2, 3)
    client.close()


# ---------------------------------------------------------------------------------------------------------------------
# Hostile texts


def test_long_number() -> None:
    """A number of 4,301 digits is refused, and later texts are judged."""
    client, told = opened({}, FAILING.replace("< 3", "< " + "9" * 4301))
    assert "NumberTooBig" in told[0]["message"], told
    client.change(URI, 2, [{"text": FAILING.replace("< 3", "< " + "0" * 5000 + "3")}])
    assert codes(client.diagnostics(2)) == ["assert"]
    client.close()


def test_text_of_parentheses() -> None:
    """A text of a megabyte of `(` is answered within two seconds of work, and so is one byte more."""
    for text, word in (("(" * 1_048_576, "Unexpected"), ("(" * 1_048_577, "1,048,576 bytes")):
        client = Client({"daig": program()})
        began = client.worked()
        client.open(URI, text)
        told = client.diagnostics(1)
        assert word in told[0]["message"], told
        assert client.worked() - began < 2, client.worked() - began
        client.close()


def test_hostile_texts() -> None:
    """Texts that are nothing but trouble are refused, each in bounded time."""
    for text in (b"{" * 1_000_000, b"x=" * 500_000, b";" * 1_000_000, b"&" * 1_000_000, b"1" * 1_000_000,
                 b"a" * 1_000_000, b"proc f(){" * 100_000, b"proc f(){}" * 90_000, b"//" * 500_000,
                 b"proc main(){x=" + b"(" * 900_000, b"proc main(){call f(" + b"1," * 300_000):  # fmt: skip
        began = time.process_time()
        try:
            TextReader().read(text)
        except Fault:
            pass
        assert time.process_time() - began < 6, (text[:20], time.process_time() - began)


def test_unexpected_exception() -> None:
    """A mistake of the language server itself is told, and later texts are judged."""
    breaking = (
        "import sys; sys.argv = ['daig_lsp.py']; sys.path.insert(0, sys.path[0] or '.')\n"
        "from daig_editor.server import document\n"
        "read = document.TextReader.read\n"
        "def broken(self, text):\n"
        "    if b'broken' in text: raise IndexError('a mistake')\n"
        "    return read(self, text)\n"
        "document.TextReader.read = broken\n"
        "from daig_editor.commands.lsp import main\n"
        "sys.exit(main())\n"
    )
    client = Client({"daig": program()}, command=[sys.executable, "-c", breaking])
    client.open(URI, FAILING + "// broken\n")
    told = client.diagnostics(1)
    assert codes(told) == ["trouble"] and "a mistake" in told[0]["message"] and client.shown, told
    client.change(URI, 2, [{"text": FAILING}])
    assert codes(client.diagnostics(2)) == ["assert"]
    client.close()


# ---------------------------------------------------------------------------------------------------------------------
# Chosen calls


def choose(client: Client, line: int) -> None:
    """Narrows the states to the call in a line."""
    client.command("daig.chooseCall", URI, {"line": line, "character": 8})


def test_chosen_call_is_edited() -> None:
    """A chosen call stays chosen where it is edited, and where the text is loaded anew around it."""
    client, _ = opened({}, CALLS)
    choose(client, 6)
    assert "x = 5" in hover(client, 1, 3)
    client.change(URI, 2, [{"text": CALLS.replace("f(5)", "f(7)")}])
    client.diagnostics(2)
    assert "x = 7" in hover(client, 1, 3) and not client.shown
    client.change(URI, 3, [{"text": CALLS.replace("f(5)", "f(7)").replace("  var a", "  var b: int;\n  var a")}])
    client.diagnostics(3)
    assert "x = 7" in hover(client, 1, 3) and not client.shown, hover(client, 1, 3)
    client.close()


def test_chosen_call_is_gone() -> None:
    """Where the chosen call is gone, the user is told."""
    client, _ = opened({}, CALLS)
    choose(client, 6)
    client.change(URI, 2, [{"text": CALLS.replace("a = call f(5);", "a = 5;")}])
    client.diagnostics(2)
    assert "x = 1" in hover(client, 1, 3) and any("chosen call is gone" in it for it in client.shown), client.shown
    client.close()


# ---------------------------------------------------------------------------------------------------------------------
# Many changes


def test_thousand_changes() -> None:
    """A notice with a thousand changes costs what a few do."""
    lines = 5000
    text = "proc main() {\n  var i: int;\n" + "  i = 1;\n" * lines + "}\n"
    client, _ = opened({"domain": "interval"}, text)
    changes: list[Json] = []
    for k in range(1000):
        where = {"start": {"line": 2 + k, "character": 6}, "end": {"line": 2 + k, "character": 7}}
        changes.append({"range": where, "text": str(k)})
    began = client.worked()
    client.change(URI, 2, changes)
    assert client.request("textDocument/documentHighlight", at(0, 0)) == []
    assert client.worked() - began < 1, client.worked() - began
    client.diagnostics(2)
    result = client.command("daig.serverProgram", URI)
    assert result["program"] == text.replace("  i = 1;\n" * 1000, "".join(f"  i = {k};\n" for k in range(1000)), 1)
    client.close()


def test_fast_strokes() -> None:
    """Forty strokes one upon the other leave one answer."""
    client, _ = opened({}, FAILING)
    data = b""
    for k in range(40):
        place = {"line": 3, "character": 13}
        change = {"range": {"start": place, "end": place}, "text": "1"} if k < 15 else {"text": FAILING + " " * k}
        params = {"textDocument": {"uri": URI, "version": 2 + k}, "contentChanges": [change]}
        data += framed({"method": "textDocument/didChange", "params": params})
    client.raw(data)
    client.diagnostics(41)
    versions = {it["params"]["version"] for it in client.seen if it.get("method") == "textDocument/publishDiagnostics"}
    assert versions - {1} == {41}, versions
    client.close()
