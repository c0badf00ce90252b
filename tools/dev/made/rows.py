"""Makes crates/melcard/src/worked_rows.rt, the decks whose transcripts and traces the definitions compute, from their laws.

    tools/dev/make [--check] rows

The laws are in crates/model_examples/src/rows. A test of melcard plays each deck and compares what it writes, on a blank device of 8,192
words, or of 256 where the law says so. With --check nothing is written, and the script ends with 1 where the file is not up to date.
"""
import re
import sys
from pathlib import Path

TOP = Path(__file__).resolve().parent.parent.parent.parent
LAWS = TOP / "crates/model_examples/src/rows"
FILE = TOP / "crates/melcard/src/worked_rows.rt"
TOPICS = ["plays", "cuts", "delegations", "images", "traces"]
LAW = r"pub fn (\w+)\(\)\n    ensures(?: \w+)? \{ (%s) \((.*?)\)\n?\s*≡ Ok \((.*?)\) \}"
TOKEN = re.compile(r'\s*(codes "((?:[^"\\]|\\.)*)"|unit_line|\+\+|\[\]|\(|\))')

HEAD = """// The decks of the worked rows, with the transcript or the trace that the definitions compute for each.
use crate::samples::Sample;
"""


def sized(part):
    """A part of a unit: its length in two bytes, and itself."""
    return len(part).to_bytes(2, "big") + part


def unit_line(name, aid, code, data):
    """The line of a unit without a signature, whose DIR and FCI records have the application's name alone."""
    aid, code, data = (bytes.fromhex(text.replace(" ", "")) for text in (aid, code, data))
    directory = bytes([0x61, len(aid) + 2, 0x4F, len(aid)]) + aid
    control = bytes([0x6F, len(aid) + 2, 0x84, len(aid)]) + aid
    unit = bytes(8) + sized(code) + sized(data) + sized(directory) + sized(control) + bytes(4)
    return f"unit {name} {unit.hex().upper()}\n"


class Text:
    """The text that an expression of a law spells."""

    def __init__(self, expression):
        self.tokens = [(it[0], it[1].replace("\\n", "\n")) for it in TOKEN.findall(expression)]
        self.place = 0

    def take(self):
        self.place += 1
        return self.tokens[self.place - 1]

    def term(self):
        word, text = self.take()
        if word == "[]":
            return ""
        if word == "unit_line":
            return unit_line(self.term(), self.term(), self.term(), self.term())
        if word == "(":
            whole = self.whole()
            self.take()
            return whole
        return text

    def whole(self):
        text = self.term()
        while self.place < len(self.tokens) and self.tokens[self.place][0] == "++":
            self.take()
            text += self.term()
        return text


def literal(text):
    return text.replace("\n", "\\n")


def row(name, kind, deck, text):
    word = "trace" if kind == "trace" else "play"
    return (
        f"    // {name.replace('_', ' ')}\n    Sample {{\n        word: \"{word}\",\n"
        f"        input: b\"{literal(Text(deck).whole())}\",\n        status: 0,\n"
        f"        text: b\"{literal(Text(text).whole())}\",\n    }},\n"
    )


def laws(topic, kinds):
    """The laws of a topic that play or trace a deck in one of these ways."""
    return re.findall(LAW % kinds, (LAWS / f"{topic}.rt").read_text(encoding="utf-8"), re.DOTALL)


def table(title, name, rows):
    return f"\n/// {title}.\npub const {name}: [Sample; {len(rows)}] = [\n{''.join(row(*it) for it in rows)}];\n"


def tables():
    """A table for each topic, since a longer one is too much for one test, and one for small devices."""
    for topic in TOPICS:
        yield table(f"Rows of {topic}", topic.upper(), laws(topic, "deck_transcript|trace"))
    small = [it for topic in TOPICS for it in laws(topic, "deck_transcript_on 256")]
    yield table("Rows on a device of 256 words", "SMALL_DEVICE", small)


def main(words):
    text = HEAD + "".join(tables())
    if words == ["--check"]:
        if FILE.read_text(encoding="utf-8") != text:
            print("crates/melcard/src/worked_rows.rt is not up to date: run tools/dev/make rows")
            return 1
    else:
        FILE.write_text(text, encoding="utf-8")
    return 0
