"""Power that is cut in one device write, and what the card is after it returns."""

from __future__ import annotations

from dataclasses import dataclass
from typing import Dict, List, Optional

import tear
from card.sessions import CARD_LINES, armed_in
from desktexts import Section, desk
from labtexts import lines_of

FILL = "00" * 8


class NoCut(Exception):
    """Why power cannot be cut there."""


@dataclass
class Cut:
    """A cut: the line of its statement, the write, the draft that plays it on, the number of lines that were put in before the statement
    and after it, and what each application of the deck has before the line, after it, and as it was cut."""

    line: int
    write: int
    draft: bytes
    inserted: int
    before: Dict[str, str]
    after: Dict[str, str]
    cut: Dict[str, str]

    def line_of(self, number: int) -> int:
        """Returns the writer's line of a line of the draft that plays the cut: lines that were put in are at the statement's."""
        if number <= self.line:
            return number
        return max(self.line, number - 1 - self.inserted)


def cut_at(draft: bytes, line: int, write: int, fill: str, selected: Optional[str]) -> Cut:
    """Cuts power in a device write of a statement and plays on: power returns, the application that was `selected` is selected again, and all
    applications that the deck names are dumped.

    # Errors

    NoCut, if the statement makes no such write, or has a stop already.
    """
    text = draft.decode(errors="replace")
    lines, deck = lines_of(text), lines_of(desk(["deck"], draft))
    fields = dict(tear.statements(deck)).get(line)
    if fields is None or fields[0] not in CARD_LINES:
        raise NoCut(f"line {line} is none of {', '.join(CARD_LINES)}")
    if armed_in(deck[:line - 1]) is not None:
        raise NoCut(f"line {line} has a stop already")
    names = tear.names_of(deck)
    try:
        _, before = tear.state(deck[:line - 1], names)
        _, after = tear.state(deck[:line], names)
        shown, cut = tear.state([*deck[:line - 1], f"cut {write} {fill}", deck[line - 1]], names)
    except tear.NotDone as why:
        raise NoCut(str(why)) from None
    if shown[-1] != f"off at write {write}":
        raise NoCut(f"line {line} has no device write {write}: its result is {shown[-1]}")
    further = ["power", *([f"select {selected}"] if selected else []), *(f"dump {it}" for it in names)]
    played = [*lines[:line - 1], f"cut {write} {fill}", lines[line - 1], *further, *lines[line:]]
    return Cut(line, write, "".join(f"{it}\n" for it in played).encode(), len(further), before, after, cut)


def bytes_by_name(sections: List[Section], aid: str, before: bytes, after: bytes, cut: bytes) -> List[List[str]]:
    """Returns rows of what differs between contents of an application's static bytes: the name, or the place where there is none, and the
    bytes before, after and cut."""
    names = [it for section in sections if section.aid == aid for it in section.names.values() if it.register == "SB"]
    rows = []
    for start, end in tear.differing([before, after, cut], []):
        at = start
        while at < end:
            name = next((it for it in names if it.offset <= at < it.offset + it.size), None)
            first, last = (name.offset, name.offset + name.size) if name else (at, end)
            if name is None:
                last = min([it.offset for it in names if at < it.offset < end], default=end)
            rows.append([name.name if name else f"SB[{first}],{last - first}", *(it[first:last].hex().upper() for it in (before, after, cut))])
            at = last
    return rows


def rows(before: Dict[str, str], after: Dict[str, str], cut: Dict[str, str], sections: List[Section]) -> List[List[str]]:
    """Returns rows of what differs between three cards: the application, its bytes by name, and what they are before, after and as cut."""
    found = []
    for aid in before:
        dumps = [it[aid] for it in (before, after, cut)]
        contents = [tear.bytes_of(it) for it in dumps]
        section = next((it.name for it in sections if it.aid == aid), aid)
        present = [it for it in contents if it is not None]
        if len(present) == 3 and len({len(it) for it in present}) == 1:
            found += [[section, *row] for row in bytes_by_name(sections, aid, *present)]
        elif len(set(dumps)) > 1:
            found.append([section, "", *dumps])
    return found


def report(made: Cut, sections: List[Section]) -> str:
    """Returns what a cut left, as a table."""
    text = [f"line {made.line}, power cut in write {made.write}: {tear.verdict(made.before, made.after, made.cut)}"]
    table = rows(made.before, made.after, made.cut, sections)
    if table:
        table = [["application", "bytes", "before", "after", "cut"], *table]
        widths = [max(len(row[at]) for row in table) for at in range(5)]
        text += ["  ".join(it.ljust(width) for it, width in zip(row, widths)).rstrip() for row in table]
    return "\n".join(text) + "\n"
