#!/usr/bin/env python3
"""Shows what a power cut in one write of one line does to a card: its bytes before the line, after it, and as it was cut.

    tools/mel/tear.py DECK LINE K [FILL] [--aid AID ..] [--deck FILE]

LINE is the number of a card line of the deck, K the device write in which power goes, and FILL the 8 bytes, in hexadecimal, that are left in
its word (zeros if none are given). Behind each of the three plays a whole `power` follows, and the static bytes of the applications that the
deck names are compared: those of its load, select, delete and dump lines, and of --aid. Then the lines that play the cut; with --deck the
whole deck is written to a file, with what was seen as expectations. Of a draft the bytes have their names, as `meldesk names` has them.

It needs Python 3.9, and `melcard` and for drafts `meldesk`, built by tools/build or by `rt ci`. It ends with 0, with 1 if the deck is refused or the line has no
such write, and with 2 if it is called wrongly.
"""

import argparse
import re
import subprocess
import sys
from typing import Dict, Iterator, List, Optional, Tuple

from card import Refused, deck_of, names_of as names_of_bytes, program_path
from card.sessions import CARD_LINES, armed_in
from labtexts import end_with_reader, lines_of, read
from units import names_of, statements

# The names of an application's static bytes: the first place of each, its size and itself.
Names = List[Tuple[int, int, str]]


class NotDone(Exception):
    """Why there is nothing to show, and the status to end with."""

    def __init__(self, why: str, status: int = 1) -> None:
        super().__init__(why)
        self.status = status


# ---- the plays


def results(deck: List[str]) -> List[str]:
    """The results of a play, as the transcript has them."""
    text = "".join(f"{line}\n" for line in deck).encode()
    played = subprocess.run([program_path("melcard"), "play"], input=text, stdout=subprocess.PIPE, check=False)
    transcript = played.stdout.decode(errors="replace").splitlines()
    if played.returncode:
        raise NotDone(f"melcard ended with {played.returncode}: {' '.join(transcript)}")
    return [line.partition(" ")[2] for line in transcript]


def state(deck: List[str], names: List[str]) -> Tuple[List[str], Dict[str, str]]:
    """The results of a deck, a whole `power` and a `dump` of each name: those of the deck, and those of the dumps by name."""
    found = results([*deck, "power", *(f"dump {name}" for name in names)])
    split = len(found) - len(names)
    return found[:split - 1], dict(zip(names, found[split:]))


def bytes_of(dump: str) -> Optional[bytes]:
    """The static bytes of a dump, or None if it has none."""
    word, _, digits = dump.partition(" ")
    return bytes.fromhex(digits) if word == "static" else None


# ---- what is shown


def differing(dumps: List[Optional[bytes]], names: Names) -> Iterator[Tuple[int, int]]:
    """The runs of places, from one up to another, at which the bytes of some dumps differ; an absent application has none. A run ends where a
    name begins or ends."""
    end = max(len(it or b"") for it in dumps)
    ends = {place for first, size, _ in names for place in (first, first + size)}
    start = None
    for place in range(end + 1):
        is_same = place == end or len({it[place:place + 1] if it is not None else b"" for it in dumps}) == 1
        if start is not None and (is_same or place in ends):
            yield start, place
            start = None
        if not is_same and start is None:
            start = place


def name_at(place: int, names: Names) -> str:
    """The name of the byte at a place, with how far behind its first it is, or nothing."""
    found = next(((place - first, name) for first, size, name in names if first <= place < first + size), None)
    return "" if found is None else found[1] if found[0] == 0 else f"{found[1]}+{found[0]}"


def table(names: List[str], of_bytes: Dict[str, Names], before: Dict[str, str], after: Dict[str, str], cut: Dict[str, str]) -> Iterator[List[str]]:
    """The rows of what differs: the application, the first place, its name if any byte has one, and the bytes before, after and as cut."""
    for name in names:
        dumps = [it[name] for it in (before, after, cut)]
        if len(set(dumps)) == 1:
            continue
        values = [bytes_of(it) for it in dumps]
        for start, end in differing(values, of_bytes.get(name, [])):
            column = [name_at(start, of_bytes.get(name, []))] if of_bytes else []
            yield [name, f"{start:04X}", *column, *(dump if it is None else it[start:end].hex().upper() for dump, it in zip(dumps, values))]
        if not any(values):
            yield [name, "", *([""] if of_bytes else []), *dumps]


def verdict(before: Dict[str, str], after: Dict[str, str], cut: Dict[str, str]) -> str:
    """What the cut left, in the word of a sweep."""
    if before == after == cut:
        return "same: the line changes no byte that is compared"
    if cut in (before, after):
        return "before: the card is as it was before the line" if cut == before else "after: the card is as after the whole line"
    return "between: neither"


def show(rows: List[List[str]], has_names: bool) -> None:
    """Prints rows as columns."""
    rows = [["application", "place", *(["name"] if has_names else []), "before", "after", "cut"], *rows]
    widths = [max(len(row[place]) for row in rows) for place in range(len(rows[0]))]
    for row in rows:
        print("  ".join(it.ljust(width) for it, width in zip(row, widths)).rstrip())


def tear(given: argparse.Namespace) -> List[str]:
    """Shows a cut, and gives the deck that plays it."""
    source = read(given.source)
    text, lines = lines_of(source), lines_of(deck_of(source))
    of_bytes: Dict[str, Names] = {}
    for it in names_of_bytes(source):
        if it.get("register") == "SB":
            of_bytes.setdefault(it["aid"], []).append((it["offset"], it["size"], it["name"]))
    if not 0 < given.line <= len(lines):
        raise NotDone(f"{given.source} has no line {given.line}: it has {len(lines)}", 2)
    found = dict(statements(lines)).get(given.line)
    if found is None or found[0] not in CARD_LINES:
        raise NotDone(f"line {given.line} is none of {', '.join(CARD_LINES)}", 2)
    front, line = lines[:given.line - 1], lines[given.line - 1]
    armed = armed_in(front)
    if armed is not None:
        raise NotDone(f"line {given.line} has a {armed[0]} already", 2)
    names = list(dict.fromkeys([*names_of(lines), *(it.upper() for it in given.aid)]))
    _, before = state(front, names)
    _, after = state([*front, line], names)
    shown, cut = state([*front, f"cut {given.write} {given.fill}", line], names)
    if shown[-1] != f"off at write {given.write}":
        raise NotDone(f"line {given.line} has no write {given.write}: its result is {shown[-1]}")
    end_with_reader()
    print(f"line {given.line}: {text[given.line - 1].strip()}\ncut in write {given.write}, {given.fill} left in its word\n{verdict(before, after, cut)}\n")
    rows = list(table(names, of_bytes, before, after, cut))
    if rows:
        show(rows, bool(of_bytes))
        print()
    seen = [it for name in names for it in (f"dump {name}", f"#> {cut[name]}")]
    return [*front, f"cut {given.write} {given.fill}", line, f"#> off at write {given.write}", "power", *seen]


def main() -> int:
    words = argparse.ArgumentParser(description="Shows what a power cut in one write of one line does to a card.")
    words.add_argument("source", metavar="DECK", help="the deck, or a draft")
    words.add_argument("line", metavar="LINE", type=int, help="the number of a card line")
    words.add_argument("write", metavar="K", type=int, help="the device write, from 1")
    words.add_argument("fill", metavar="FILL", nargs="?", default="00" * 8, help="the 8 bytes that are left in its word (zeros)")
    words.add_argument("--aid", action="append", default=[], help="another application to look at; may be given again")
    words.add_argument("--deck", metavar="FILE", help="write the deck that plays the cut to this file")
    given = words.parse_args()
    if not 1 <= given.write < 1 << 32 or not re.fullmatch("[0-9A-Fa-f]{16}", given.fill):
        words.error("K is 1 to 4,294,967,295, and FILL is 16 hexadecimal digits")
    wrong = next((it for it in given.aid if not re.fullmatch("(?:[0-9A-Fa-f]{2}){5,16}", it)), None)
    if wrong is not None:
        words.error(f"AID is 5 to 16 bytes in hexadecimal, not {wrong or 'nothing'}")
    try:
        deck = tear(given)
        if given.deck is not None:
            with open(given.deck, "w", encoding="utf-8", newline="\n") as file:
                file.write("".join(f"{line}\n" for line in deck))
    except NotDone as why:
        print(f"tear.py: {why}", file=sys.stderr)
        return why.status
    except Refused as why:
        print(f"tear.py: {given.source} is refused: {why}", file=sys.stderr)
        return 1
    except OSError as error:
        print(f"tear.py: {error}", file=sys.stderr)
        return 2
    print(f"These lines play it, in place of line {given.line} and those after it:\n")
    print("\n".join(deck[given.line - 1:]))
    return 0


if __name__ == "__main__":
    sys.exit(main())
