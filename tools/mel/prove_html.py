#!/usr/bin/env python3
"""Makes an HTML page of what `mellab prove` found: the keys between commands as a matrix, and the way to each broken rule.

    tools/mel/prove_html.py TEXT [DRAFT] > PAGE.html

TEXT is the text that `mellab prove` wrote, or - for the standard input. A row is a key, a column a byte of which something is known at some
key; a byte that has one value at every key has a line above the matrix in place of a column. With a DRAFT whose deck was proved the bytes have
its names. The page stands alone: it has no script, and loads nothing.

It needs Python 3.9, and `meldesk` for a draft. It ends with 2 if it cannot read what it is given or the text is of another draft.
"""

import argparse
import re
import sys
from dataclasses import dataclass
from html import escape
from pathlib import Path
from typing import Dict, Iterator, List, Tuple

import card
import fits
import labtexts
from labtexts import BadText

STYLE = """
.matrix { border-collapse: collapse; } .matrix th, .matrix td { padding: 2px 8px; border: 1px solid #ddd; font: 13px/1.4 monospace; text-align: left; }
.matrix .session { background: #eef5ee; } .matrix td.one { background: #dbe9f6; } .matrix td.some { background: #fdf0d5; } .matrix td.any { color: #aaa; }
ol.way { font: 13px/1.5 monospace; }
"""
PAGE = """
:root { color-scheme: light; }
body { font: 15px/1.5 system-ui, sans-serif; color: #222; background: #fff; max-width: 1180px; margin: 0 auto; padding: 16px; }
h1 { font-size: 1.5em; } h2 { font-size: 1.2em; } .wide { overflow-x: auto; }
"""
KEY = re.compile(r"(idle|session)((?: \S+ \d+)*):((?: [SD]B\[\d+\] [0-9A-F,-]+)*)$")
FACT = re.compile(r" ([SD]B)\[(\d+)\] ([0-9A-F,-]+)")
AMOUNT = re.compile(r" (\S+) (\d+)")

# A byte: its register and its offset.
Byte = Tuple[str, int]


@dataclass
class Key:
    """A moment between commands at which power may go."""

    word: str
    amounts: List[Tuple[str, str]]
    facts: Dict[Byte, str]


def keys_of(text: str) -> List[Key]:
    """The keys of a text."""
    found = (KEY.match(line) for line in text.splitlines())
    return [Key(it[1], AMOUNT.findall(it[2]), {(register, int(place)): values for register, place, values in FACT.findall(it[3])}) for it in found if it]


def faults_of(text: str) -> List[Tuple[str, List[str]]]:
    """Each line of what is broken or not known, and the steps of its way."""
    lines = (line.split(" ; ") for line in text.splitlines() if line.startswith(("broken ", "unknown ")))
    return [(" ; ".join(parts[:-1]) if len(parts) > 1 and parts[-1].startswith("created") else " ; ".join(parts),
             parts[-1].split(", ") if parts[-1].startswith("created") else []) for parts in lines]


def names_in(draft: str) -> List[Dict]:
    """The names of the application that the rules of a draft speak of."""
    fields = (line.split() for line in draft.splitlines())
    section = next((it[2] for it in fields if it[:2] == ["#@", "app"] and len(it) == 3), None)
    return [it for it in card.names_of(draft) if it.get("section") == section]


def name_of(byte: Byte, names: List[Dict]) -> str:
    """A byte as a page writes it, with its name if a draft has one."""
    register, place = byte
    for it in names:
        if it.get("register") == register and it["offset"] <= place < it["offset"] + it["size"]:
            return it["name"] if it["size"] == 1 else f'{it["name"]}+{place - it["offset"]}'
    return f"{register}[{place}]"


def constant_bytes(keys: List[Key], columns: List[Byte]) -> List[Byte]:
    """The bytes that have one and the same value at every key."""
    return [byte for byte in columns if len({key.facts.get(byte, "") for key in keys}) == 1 and len(keys[0].facts.get(byte, "")) == 2]


def cell(values: str) -> str:
    """The values of a byte at a key."""
    kind = "any" if not values else "one" if len(values) == 2 else "some"
    return f'<td class="{kind}">{escape(values) or "any"}</td>'


def matrix(text: str, names: List[Dict]) -> Iterator[str]:
    """The keys by their facts."""
    keys = keys_of(text)
    if not keys:
        return
    order = {"SB": 0, "DB": 1}
    columns = sorted({byte for key in keys for byte in key.facts}, key=lambda byte: (order[byte[0]], byte[1]))
    fixed = constant_bytes(keys, columns)
    if fixed:
        yield "<p>At every key: " + ", ".join(f"<code>{escape(name_of(byte, names))}</code> {escape(keys[0].facts[byte])}" for byte in fixed) + "</p>"
    shown = [byte for byte in columns if byte not in fixed]
    heads = ["", *(name for name, _ in keys[0].amounts), *(name_of(byte, names) for byte in shown)]
    yield '<div class="wide"><table class="matrix"><tr>' + "".join(f"<th>{escape(head)}</th>" for head in heads) + "</tr>"
    for key in keys:
        amounts = "".join(f"<td>{escape(amount)}</td>" for _, amount in key.amounts)
        yield f'<tr class="{key.word}"><td>{key.word}</td>{amounts}' + "".join(cell(key.facts.get(byte, "")) for byte in shown) + "</tr>"
    yield "</table></div>"


def faults(text: str) -> Iterator[str]:
    """What is broken or not known, with the way to it."""
    for line, steps in faults_of(text):
        yield f"<p><code>{escape(line)}</code></p>"
        if steps:
            yield '<ol class="way">' + "".join(f"<li>{escape(step)}</li>" for step in steps) + "</ol>"


def page(text: str, names: List[Dict]) -> Iterator[str]:
    """The whole page."""
    last = text.splitlines()[-1]
    yield f'<!DOCTYPE html>\n<html lang="en"><head><meta charset="utf-8"><title>{escape(last)}</title><style>{PAGE}{STYLE}</style></head><body>'
    yield f"<h1>{escape(last)}</h1>"
    yield from faults(text)
    yield "<h2>Between commands</h2>"
    yield from matrix(text, names)
    yield "</body></html>"


def main() -> int:
    """Reads the words of the command line, and writes the page."""
    words = argparse.ArgumentParser(description="Makes an HTML page of what mellab prove found.")
    words.add_argument("text", metavar="TEXT", help="what mellab prove wrote, or - for the standard input")
    words.add_argument("draft", metavar="DRAFT", nargs="?", help="the draft whose deck was proved, for the names of its bytes")
    given = words.parse_args()
    labtexts.end_with_reader()
    try:
        text = labtexts.read_given(given.text)
        if labtexts.read_text(text).kind != "prove":
            raise BadText("this is no text of mellab prove")
        if given.draft:
            fits.check(labtexts.read_text(text), labtexts.lines_of(labtexts.read(given.draft)), given.text)
        names = names_in(card.text_of(Path(given.draft))) if given.draft else []
    except (OSError, BadText) as error:
        print(f"prove_html.py: {error}", file=sys.stderr)
        return 2
    labtexts.write("".join(f"{line}\n" for line in page(text, names)))
    return 0


if __name__ == "__main__":
    sys.exit(main())
