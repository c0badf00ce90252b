#!/usr/bin/env python3
"""Proposes moves for `mellab explore` from the ways that `mellab prove` found to broken rules: what is broken is then shown by a play.

    tools/mel/prove_moves.py DECK > MOVES.deck

DECK is a deck or draft with rules for one application, or - for the standard input. The new deck is that deck with a `#@ move` line for power,
for the selection of the application, and for each command on a way: its header with the lowest values that it may have, and the same with
each INS that the code compares; each alone, with the bytes of each DATA or STATIC line of up to 16 bytes, with as many zeros, and with a one
at their end. Its last comment has a depth for an exploration: the moves of the longest way, and one more for each INS that is on no way. A way
on which another application delegates to this one has no commands, and gives no moves.

It needs Python 3.9, and mellab (and meldesk for a draft). It ends with 1 if no rule is broken by a command, and with 2 if it cannot read what
it is given.
"""

import argparse
import re
import subprocess
import sys
from typing import Iterator, List, Optional

import card
import labtexts
import prove_html
from labtexts import BadText

LONGEST = 16
HEADER = re.compile(r"apdu ([0-9A-F,-]+) ([0-9A-F,-]+) ([0-9A-F,-]+) ([0-9A-F,-]+)")
COMPARED = re.compile(r"CMPB\s+(?:PT\[-12\]|INS)\s*,\s*(0x[0-9A-Fa-f]+|\d+)")
BYTES = re.compile(r"(?:[0-9A-Fa-f]{2})+$")


def found_by_prove(deck: str) -> str:
    """What `mellab prove` writes of a deck."""
    done = subprocess.run([card.program_path("mellab"), "prove"], input=deck.encode(), stdout=subprocess.PIPE, check=False)
    text = done.stdout.decode(errors="replace")
    if done.returncode not in (0, 1) or labtexts.read_text(text).refused is not None:
        raise BadText(f"mellab prove refuses the deck: {text.strip()}")
    return text


def lowest(values: str) -> str:
    """The lowest value of a set."""
    return values[:2]


def headers_on_ways(text: str) -> List[str]:
    """The headers of the commands on the ways, with the lowest values that they may have, each once."""
    steps = (step for _, way in prove_html.faults_of(text) for step in way)
    return list(dict.fromkeys("".join(map(lowest, it.groups())) for it in map(HEADER.match, steps) if it))


def headers_of(text: str, lines: List[str]) -> List[str]:
    """The headers of the commands on the ways, and those with another INS that the code compares, each once."""
    found = headers_on_ways(text)
    compared = [f"{int(it[1], 0):02X}" for it in map(COMPARED.search, lines) if it]
    return list(dict.fromkeys([*found, *(it[:2] + ins + it[4:] for it in found for ins in compared)]))


def depth_of(text: str, lines: List[str]) -> int:
    """The number of moves on the longest way, its selections, losses of power and commands, and one more for each INS that is on no way."""
    ways = (way for _, way in prove_html.faults_of(text))
    longest = max((sum(step.startswith(("select", "power", "apdu")) for step in way) for way in ways), default=0)
    others = {it[2:4] for it in headers_of(text, lines)} - {it[2:4] for it in headers_on_ways(text)}
    return longest + len(others)


def blocks_of(lines: List[str]) -> Iterator[str]:
    """The bytes of the application's data, block by block."""
    for line in lines:
        fields = line.split(";")[0].split()
        if fields[:1] in (["DATA"], ["STATIC"]) and BYTES.match(fields[-1]) and len(fields[-1]) <= 2 * LONGEST:
            yield fields[-1].upper()


def bodies_of(lines: List[str]) -> List[str]:
    """The bodies that a command is tried with."""
    blocks = list(blocks_of(lines))
    zeros = ["00" * (len(it) // 2) for it in blocks]
    return list(dict.fromkeys(["", *blocks, *zeros, *(it[:-2] + "01" for it in zeros)]))


def name_to_select(lines: List[str]) -> Optional[str]:
    """The AID of the application that the rules speak of, or what the deck selects first."""
    fields = [line.split() for line in lines]
    name = next((it[2] for it in fields if it[:2] == ["#@", "app"] and len(it) == 3), None)
    aid = next((it[2] for it in fields if it[:1] == ["app"] and len(it) > 2 and it[1] == name), None)
    return aid or next((it[1] for it in fields if it[:1] == ["select"] and len(it) > 1), None)


def moves_of(lines: List[str], text: str) -> Iterator[str]:
    """The proposed lines."""
    yield "#@ move power"
    aid = name_to_select(lines)
    if aid is not None:
        yield f"#@ move select {aid}"
    for header in headers_of(text, lines):
        for body in bodies_of(lines):
            yield f"#@ move apdu {header}" + (f"{len(body) // 2:02X}{body}" if body else "")


def main() -> int:
    """Reads the words of the command line, and writes the deck."""
    words = argparse.ArgumentParser(description="Proposes moves for mellab explore from what mellab prove found.")
    words.add_argument("deck", metavar="DECK", help="a deck or draft with rules, or - for the standard input")
    given = words.parse_args()
    labtexts.end_with_reader()
    try:
        draft = sys.stdin.read() if given.deck == "-" else labtexts.read(given.deck)
        deck = card.deck_of(draft)
        text = found_by_prove(deck)
    except (OSError, BadText, ValueError) as error:
        print(f"prove_moves.py: {error}", file=sys.stderr)
        return 2
    if not headers_of(text, []):
        print("prove_moves.py: no command leads to a broken rule", file=sys.stderr)
        return 1
    lines, known = labtexts.lines_of(draft), set(labtexts.lines_of(deck))
    sys.stdout.write(deck if deck.endswith("\n") else deck + "\n")
    sys.stdout.writelines(f"{line}\n" for line in moves_of(lines, text) if line not in known)
    print(f"# mellab explore {depth_of(text, lines)}")
    return 0


if __name__ == "__main__":
    sys.exit(main())
