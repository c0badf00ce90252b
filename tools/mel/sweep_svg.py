#!/usr/bin/env python3
"""Draws the text of `mellab sweep` as a picture: a bar for each swept line, its writes coloured by their word.

    tools/mel/sweep_svg.py SWEEP [DECK] > PICTURE.svg

SWEEP is the text that `mellab sweep` wrote, or - for the standard input. If the deck is given too, the statement of each line is
beside its bar. Each write is as wide as each other, 64 in a row: a long load takes more rows, and those of them that are of one word alone
are drawn as one. The number of a line that must be whole and is not is red.

It needs Python 3.9. It ends with 2 if it cannot read what it is given or the sweep is of another deck.
"""

import argparse
import sys
from typing import Iterator, List, Optional, Tuple
from xml.sax.saxutils import escape

import fits
import labtexts
from labtexts import BadText, Swept

COLOURS = {"before": "#4c78a8", "after": "#59a14f", "same": "#bab0ac", "between": "#f28e2b", "torn": "#e15759"}

PER_ROW = 64
WRITE = 10
BAR = 14
ROW = 18
GAP = 8
LEFT = 60
TOP = 74
BESIDE = 420
MOST_CHARACTERS = 56

# A row of a bar: its first and its last write, and its runs.
Row = Tuple[int, int, List[Tuple[str, int, int]]]


def rows_of(line: Swept) -> List[Row]:
    """The rows of a swept line's bar; rows of one word alone are joined, and the first and the last stay by themselves."""
    rows: List[Row] = []
    for first in range(1, line.writes + 1, PER_ROW):
        last = min(first + PER_ROW - 1, line.writes)
        runs = [(word, max(start, first), min(end, last)) for word, start, end in line.runs if start <= last and end >= first]
        is_like_before = len(rows) > 1 and len(runs) == len(rows[-1][2]) == 1 and runs[0][0] == rows[-1][2][0][0]
        if is_like_before and last < line.writes:
            start = rows[-1][0]
            rows[-1] = start, last, [(runs[0][0], start, last)]
        else:
            rows.append((first, last, runs))
    return rows


def beside(statement: str) -> str:
    """A statement as it is written beside its bar, shortened."""
    words = " ".join(statement.split())
    return words if len(words) <= MOST_CHARACTERS else words[: MOST_CHARACTERS - 1] + "…"


def row_of_bar(y: int, row: Row, writes: int) -> Iterator[str]:
    """A row: a box for each run, with its numbers as a title, and the numbers of rows that were joined."""
    first, last, runs = row
    is_joined = last - first >= PER_ROW
    for word, start, end in runs:
        x = LEFT if is_joined else LEFT + (start - first) * WRITE
        width = PER_ROW * WRITE if is_joined else (end - start + 1) * WRITE
        yield (f'<rect x="{x}" y="{y}" width="{width}" height="{BAR}" fill="{COLOURS[word]}">'
               f"<title>{word} {start}-{end} of {writes}</title></rect>")
    if is_joined:
        yield f'<text x="{LEFT + PER_ROW * WRITE // 2}" y="{y + 11}" fill="white" text-anchor="middle">{first}-{last} {runs[0][0]}</text>'
    elif first > 1:
        yield f'<text x="{LEFT - 6}" y="{y + 11}" fill="#777" text-anchor="end" font-size="10">{first}</text>'


def axis(height: int) -> Iterator[str]:
    """The numbers of the writes in a row, and lines down from them."""
    for write in (1, *range(8, PER_ROW + 1, 8)):
        x = LEFT + write * WRITE - WRITE // 2
        yield f'<line x1="{x}" y1="{TOP - 8}" x2="{x}" y2="{height - 8}" stroke="#eee"/>'
        yield f'<text x="{x}" y="{TOP - 12}" fill="#777" text-anchor="middle" font-size="10">{write}</text>'


def legend() -> Iterator[str]:
    """The words and their colours."""
    for place, (word, colour) in enumerate(COLOURS.items()):
        yield f'<rect x="{10 + 100 * place}" y="30" width="12" height="12" fill="{colour}"/>'
        yield f'<text x="{28 + 100 * place}" y="41">{word}</text>'


def picture(swept: List[Swept], sums: Optional[str], statements: List[str]) -> Iterator[str]:
    """The whole picture."""
    bars = [(line, rows_of(line)) for line in swept]
    height = TOP + sum(ROW * len(rows) + GAP for _, rows in bars) + 12
    width = LEFT + PER_ROW * WRITE + 20 + (BESIDE if statements else 0)
    yield (f'<svg xmlns="http://www.w3.org/2000/svg" width="{width}" height="{height}" viewBox="0 0 {width} {height}" '
           'font-family="monospace" font-size="12">')
    yield f'<rect width="{width}" height="{height}" fill="white"/>'
    yield f'<text x="10" y="20">{escape(sums or "a sweep that is not done")}</text>'
    yield from legend()
    yield from axis(height)
    y = TOP
    for line, rows in bars:
        colour = COLOURS["torn"] if line.is_broken else "black"
        title = "<title>not whole</title>" if line.is_broken else ""
        yield f'<text x="10" y="{y + 11}" fill="{colour}">{line.number}{title}</text>'
        if 0 < line.number <= len(statements):
            yield f'<text x="{LEFT + PER_ROW * WRITE + 10}" y="{y + 11}">{escape(beside(statements[line.number - 1]))}</text>'
        for row in rows:
            yield from row_of_bar(y, row, line.writes)
            y += ROW
        y += GAP
    yield "</svg>"


def main() -> int:
    words = argparse.ArgumentParser(description="Draws what mellab sweep wrote.")
    words.add_argument("sweep", help="what mellab sweep wrote; - is the standard input")
    words.add_argument("deck", nargs="?", help="the deck that it is of")
    given = words.parse_args()
    try:
        text = labtexts.read_text(labtexts.read_given(given.sweep))
        if text.kind == "":
            raise BadText(f"{given.sweep} has no sweep: it is empty")
        if text.kind != "sweep":
            raise BadText(f"{given.sweep} is no sweep: {text.last or 'the deck is refused'}")
        statements = [] if given.deck is None else labtexts.lines_of(labtexts.read(given.deck))
        if given.deck is not None:
            fits.check(text, statements, given.sweep)
    except (OSError, BadText) as error:
        print(f"sweep_svg.py: {error}", file=sys.stderr)
        return 2
    labtexts.end_with_reader()
    labtexts.write("".join(f"{line}\n" for line in picture(text.swept, text.last if text.is_whole else None, statements)))
    return 0


if __name__ == "__main__":
    sys.exit(main())
