"""Small parts by themselves: states in words, places in a text, settings."""
from __future__ import annotations

from random import Random

from daig_editor.language.places import Shift, SourceText
from daig_editor.language.tree import Span
from daig_editor.language.words import over_words, state_lines
from daig_editor.protocol.settings import read_options

STATES = [
    ("i=[0,10] n=[10,10] x=[min,max]", ["0 ≤ i ≤ 10, n = 10"]),
    ("x=[min,3] y=[4,max] #a=[0,1000000] #b=[0,7]", ["x ≤ 3, y ≥ 4, 0 ≤ len b ≤ 7"]),
    ("x=[min,max]", ["anything"]),
    ("i=[0,9] #a=[0,1000000] i-#a<=-1", ["0 ≤ i ≤ 9, i < len a"]),
    ("x=[min,max] y=[min,max] x-y<=3 y-x<=-3", ["x = y + 3"]),
    ("x=[min,max] y=[min,max] x+y<=7 -x-y<=-7 x-y<=4", ["x + y = 7, x ≤ y + 4"]),
    ("x=[min,max] y=[min,max] -x-y<=2 x-y<=-5", ["x + y ≥ -2, x ≤ y - 5"]),
    ("p=nil q=nil", ["p = q = null"]),
    ("p=1 q=2 1:one(2) 2:seg(nil)", ["p: 1 cell to q, q: 1 or more cells to null"]),
    (
        "p=1 q=2 1:one(3) 2:seg(3) 3:one(nil)",
        ["p: 1 cell to cell 3, q: 1 or more cells to cell 3, cell 3: 1 cell to null"],
    ),
    ("p=nil | p=1 1:seg(1)", ["p = null or p: 1 or more cells to p"]),
    ("x=[1,1] & p=nil", ["x = 1", "p = null"]),
    ("none & none", ["never reached"]),
    ("any & top", ["lists: anything"]),
]


def test_words() -> None:
    """States as a person reads them."""
    for text, wanted in STATES:
        assert state_lines(text) == wanted, f"{text}: {state_lines(text)}"
    words = over_words(7, 100, [3, 5])
    assert "line 7" in words and "line 3, 5" in words and "100 rounds" in words and "--budget" in words


def test_places() -> None:
    """Positions count UTF-16 units or bytes, and past a line's end stands its end."""
    data = "a\né𝄞b\r\nlast".encode()
    for utf8, character, wanted in ((False, 3, 8), (True, 6, 8), (False, 99, 9), (False, 1, 4), (True, 2, 4)):
        place = SourceText.of(data, utf8).place({"line": 1, "character": character})
        assert place == wanted, (utf8, character, place)
    text = SourceText.of(data, False)
    assert text.position(8) == {"line": 1, "character": 3} and text.position(len(data)) == {"line": 2, "character": 4}
    assert text.place({"line": 9, "character": 0}) == len(data)
    where = {"start": {"line": 1, "character": 1}, "end": {"line": 2, "character": 1}}
    assert text.changed([{"range": where, "text": "x\ny"}]).data == "a\néx\nyast".encode()
    assert text.changed([{"text": "new"}]).data == b"new"


def test_shift() -> None:
    """What stands before a difference and after it keeps its place."""
    old, new = b"one;\n  i = a[i];\n}\n", b"one;\n  if (x) {\n  i = a[i];\n}\n"
    shift = Shift.between(old, new)
    assert shift.span(Span(7, 16)) == Span(18, 27) and shift.span(Span(0, 4)) == Span(0, 4)
    assert shift.reversed().forth(8) is None and shift.reversed().forth(18) == 7
    inner = Shift.between(b"x = 1;\n", b"x = 12;\n")
    assert inner.span(Span(0, 6)) == Span(0, 7) and inner.forth(7) == 8


def test_settings() -> None:
    """What is wrong is said, and the default stands."""
    options = read_options({"daig": "sh", "domain": "octagon", "budget": 7.0, "delay": 101, "colour": 1})
    assert (options.settings.domain, options.settings.budget, options.settings.delay) == ("octagon", 7, 0)
    assert [it.split(":")[0] for it in options.complaints] == ["no such setting", "delay"], options.complaints
    assert read_options({"daig": "sh", "widening": True}).complaints and not read_options({"daig": "sh"}).complaints


def test_changes_of_texts() -> None:
    """A text that is changed at some places is what the whole new text is, with all ends of lines."""
    random = Random(2)
    for _ in range(3000):
        letters = ["a", "é", "𝄞", "\n", "\r", "\r\n", "bc"]
        utf8 = random.random() < 0.5
        text = SourceText.of("".join(random.choices(letters, k=random.randrange(12))).encode(), utf8)
        wanted, made = text, []
        for _ in range(random.choice([1, 1, 2, 3])):
            change: dict[str, object] = {"text": "".join(random.choices(letters, k=random.randrange(3)))}
            places = [{"line": random.randrange(6), "character": random.randrange(5)} for _ in range(2)]
            change["range"] = {"start": places[0], "end": places[1]}
            start, end = (wanted.place(it) for it in places)
            data = wanted.data[:start] + str(change["text"]).encode() + wanted.data[max(start, end) :]
            wanted = SourceText.of(data, utf8)
            made.append(change)
        found = text.changed(made)
        assert (found.data, found.starts) == (wanted.data, wanted.starts), (text, made)


def test_defaults() -> None:
    """The settings that stand where none are given."""
    settings = read_options(None).settings
    assert (settings.domain, settings.widening, settings.delay) == ("octagon+listseg", "thresholds", 0)
    assert (settings.budget, settings.memory) == (100, 2048)
