"""Formatting changes spaces alone, loses no comment, and is what the server prints where there are none."""
from __future__ import annotations

import json
import subprocess
import tempfile
from pathlib import Path
from random import Random

from daig_editor.language.layout import laid_out, layout_edits
from daig_editor.language.text import TextReader
from daig_editor.language.tokens import scanned
from daig_editor.language.tree import program_text
from tests.program import changes, program
from tests.random_sources import ChangeMaker, SourceMaker
from tests.small import URI, opened

UGLY = b"""// first
proc f(x:int)->r:int{r=x*(2+1);// twice
}

proc main (  ){
var a:array;var i :int ;


  // before
  i=-1- -2;   while(i<len a&&!(i==3)){
// inside

a[i+1]=call f ( i );}
 if(i<0){skip;}
 // between
 else{ i = 1 + // more
2; }}"""
PRETTY = b"""// first
proc f(x: int) -> r: int {
  r = x * (2 + 1);  // twice
}

proc main() {
  var a: array;
  var i: int;

  // before
  i = -1 - -2;
  while (i < len a && !(i == 3)) {
    // inside

    a[i + 1] = call f(i);
  }
  if (i < 0) {
    skip;
  }
  // between
  else {
    i = 1 +  // more
        2;
  }
}
"""


def words(text: bytes) -> list[str]:
    """The tokens and comments of a text."""
    return [it.word for it in scanned(text)]


def test_pretty() -> None:
    """What an ugly text becomes; with the line ends of the text."""
    assert laid_out(UGLY) == PRETTY, laid_out(UGLY).decode()
    assert laid_out(UGLY.replace(b"\n", b"\r\n")) == PRETTY.replace(b"\n", b"\r\n")
    assert laid_out(b"") == b"" and laid_out(b"// one") == b"// one\n" and laid_out(b"  x = & 1;") == b"  x = & 1;"


def test_random_texts() -> None:
    """Tokens and comments stay, in programs and in broken texts, and a second time changes nothing."""
    random = Random(5)
    for _ in range(max(30, changes() // 4)):
        maker = SourceMaker(random)
        text = maker.source(random.randrange(3))
        for _ in range(random.randrange(4)):
            text = ChangeMaker(random, maker).change(text).of(text)
        spaced = "".join(it + random.choice(["", "", " ", "\n", " // é\n"]) if it in ";{}" else it for it in text)
        data = spaced.encode()
        once = laid_out(data)
        assert words(once) == words(data), text
        assert laid_out(once) == once, once.decode()
        for span, _ in layout_edits(data):
            assert not data[span.start : span.end].strip()


def test_as_the_server_prints() -> None:
    """A program is laid out as the server prints it, except what leaves no trace in its tree."""
    random = Random(6)
    with tempfile.TemporaryDirectory() as folder:
        for _ in range(6):
            text = SourceMaker(random).source(2)
            printed = program_text(TextReader().read(text.encode())).encode()
            file = Path(folder) / "text.imp"
            file.write_bytes(printed)
            ask = b'{"do":"program"}\n'
            done = subprocess.run([program(), "serve", str(file)], input=ask, capture_output=True, check=False)
            reply = json.loads(done.stdout.splitlines()[0])
            if "program" in reply:
                assert reply["program"].encode() == printed
            squeezed = b" ".join(it.word.encode() for it in scanned(printed))
            assert laid_out(squeezed) == printed, laid_out(squeezed).decode()


def test_formatting_request() -> None:
    """The edits of a file, and those of a range of it."""
    client, _ = opened({}, UGLY.decode())
    document = {"textDocument": {"uri": URI}, "options": {"tabSize": 2, "insertSpaces": True}}
    edits = client.request("textDocument/formatting", document)
    client.change(URI, 2, [{"range": it["range"], "text": it["newText"]} for it in reversed(edits)])
    assert client.request("textDocument/formatting", document) == []
    client.change(URI, 3, [{"text": UGLY.decode()}])
    where = {"start": {"line": 1, "character": 0}, "end": {"line": 2, "character": 0}}
    part = client.request("textDocument/rangeFormatting", {**document, "range": where})
    assert part and all(1 <= it["range"]["start"]["line"] <= 2 for it in part) and len(part) < len(edits)
    client.close()
