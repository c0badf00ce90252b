#!/usr/bin/env python3
"""Writes what each command of a draft costs: its executed instructions and its device writes, as a table.

    tools/mel/cost.py DRAFT [--sections]

A row is a statement that ran an application: its line, the instructions of the whole chain, the device writes that they made, the deepest frame,
the most bytes that a stack had, and its result. The last row has the sums. With --sections a second table has for each section the
instructions and writes of its own code, and its costliest lines. A statement without turns, as a `load`, costs no instructions, and
`mellab sweep` counts its writes.

It needs Python 3.9 and `meldesk`, built by tools/build or by `rt ci`. It ends with 0, with 1 if the draft is refused, and with 2 if it cannot
be read.
"""

from __future__ import annotations

import argparse
import sys
from collections import Counter
from pathlib import Path
from typing import Iterator, List, Tuple

from desktexts import DYNAMIC, Play, Refused, Section, Statement, sections_of
from labtexts import end_with_reader

LONGEST = 60


def writes_of(turn: dict) -> int:
    """Returns the number of device writes that a turn makes."""
    return turn["writes"][1] - turn["writes"][0] + 1 if turn["writes"] else 0


def shortened(text: str) -> str:
    """Returns a statement as a row has it."""
    return text if len(text) <= LONGEST else text[:LONGEST - 1] + "…"


def row_of(statement: Statement) -> List[str]:
    """Returns the row of a statement."""
    turns = [it for it in statement.records if "turn" in it]
    executed = sum(it["ins"] != "?" for it in turns)
    deepest = max(it["dt"] - DYNAMIC - statement.sizes.get(it["aid"], (0, 0))[1] for it in turns)
    return [str(statement.line), str(executed), str(sum(map(writes_of, turns))), str(max(it["depth"] for it in turns)), str(deepest),
            shortened(statement.result or ""), shortened(statement.text)]


def columns(rows: List[List[str]], numbers: int) -> Iterator[str]:
    """Returns rows as lines, with the first `numbers` columns to the right."""
    widths = [max(len(row[at]) for row in rows) for at in range(len(rows[0]))]
    for row in rows:
        yield "  ".join(it.rjust(width) if at < numbers else it.ljust(width) for at, (it, width) in enumerate(zip(row, widths))).rstrip()


def own_costs(costs: "Counter[Tuple[str, int]]", writes: "Counter[Tuple[str, int]]", sections: List[Section]) -> Iterator[List[str]]:
    """Returns the rows of the sections: the costs of their code, and the three lines that ran most."""
    for section in sections:
        lines = {it.line: it.text for it in section.code}
        found = {line: count for (aid, line), count in costs.items() if aid == section.aid and line in lines}
        most = sorted(found, key=lambda line: (-found[line], line))[:3]
        made = sum(count for (aid, line), count in writes.items() if aid == section.aid and line in lines)
        yield [str(sum(found.values())), str(made), section.name, ", ".join(f"line {line}: {found[line]}" for line in most)]


def main() -> int:
    words = argparse.ArgumentParser(description="Writes the instructions and device writes of each command of a draft.")
    words.add_argument("draft", metavar="DRAFT", help="the draft, or a deck")
    words.add_argument("--sections", action="store_true", help="also what the code of each section costs")
    given = words.parse_args()
    rows = [["line", "turns", "writes", "depth", "stack", "result", "statement"]]
    costs: "Counter[Tuple[str, int]]" = Counter()
    writes: "Counter[Tuple[str, int]]" = Counter()
    try:
        draft = Path(given.draft).read_bytes()
        play = Play(draft)
        try:
            for statement in play.statements():
                if statement.turns:
                    rows.append(row_of(statement))
                for turn in (it for it in statement.records if "turn" in it and it["source"] is not None):
                    costs[turn["aid"], turn["source"]] += turn["ins"] != "?"
                    writes[turn["aid"], turn["source"]] += writes_of(turn)
        finally:
            play.close()
        sections = sections_of(draft) if given.sections else []
    except OSError as error:
        print(f"cost.py: {error}", file=sys.stderr)
        return 2
    except Refused as why:
        print(f"cost.py: {why}", file=sys.stderr)
        return 1
    end_with_reader()
    sums = [str(sum(int(row[at]) for row in rows[1:])) for at in (1, 2)]
    print("\n".join(columns([*rows, ["", *sums, "", "", "", f"{len(rows) - 1} commands"]], 5)))
    if given.sections:
        print()
        print("\n".join(columns([["turns", "writes", "section", "most"], *own_costs(costs, writes, sections)], 2)))
    return 0


if __name__ == "__main__":
    sys.exit(main())
