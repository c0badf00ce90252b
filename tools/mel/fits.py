"""Whether what `mellab` wrote is of a deck: for tools/mel/junit.py, tools/mel/report.py, tools/mel/sweep_svg.py and tools/mel/prove_html.py, which
show a text beside its deck.

Python 3.9 and its standard library alone.
"""

from __future__ import annotations

import re
from pathlib import Path
from typing import Dict, Iterator, List, Optional

from card.sessions import armed_in
from labtexts import BadText, Job, Remark, Text, fields_of, jobs_of, remarks_of
from units import statements

HEX = re.compile("(?:[0-9A-Fa-f]{2})+")
# The statements that may make device writes.
WRITING = ("power", "load", "delete", "apdu")
# What an exploration puts between moves.
BETWEEN = ("cut", "fail", "power", "budget")


class Deck:
    """What a text can name of a deck or a draft: its lines, statements and remarks by their numbers, and its marks of whole lines."""

    def __init__(self, lines: List[str]) -> None:
        self.lines = lines
        self.statements: Dict[int, List[str]] = dict(statements(lines))
        remarks = remarks_of(lines)
        self.expected: Dict[int, Remark] = {it.number: it for it in remarks if it.mark == "#>"}
        self.rules: Dict[int, List[str]] = {it.number: it.text.split() for it in remarks if it.mark == "#@"}
        self.whole = [number for number, line in enumerate(lines, 1) if fields_of(line) == ["#!", "whole"]]

    def rules_of(self, word: str) -> List[List[str]]:
        """The rules that begin with a word."""
        return [it for it in self.rules.values() if it[:1] == [word]]

    def before(self, number: int) -> int:
        """The line of the last statement before a line, 0 if there is none."""
        return max((it for it in self.statements if it < number), default=0)


def name_of(rule: List[str]) -> Optional[str]:
    """What a rule is called if it is broken, or None if it is one that cannot be: it sets an amount, or moves a sum."""
    if rule[:2] == ["never", "abend"]:
        return "abend"
    if rule[:1] == ["always"] and len(rule) > 1:
        return rule[1]
    return rule[-2] if rule[:1] == ["on"] and rule[-3:-2] in (["spend"], ["need"]) else None


def is_line(found: List[str], wanted: List[str]) -> bool:
    """Whether fields are those of a line, or of what a draft's line makes: that has other fields, or a name in place of bytes."""
    if found == wanted:
        return True
    return found[:1] == wanted[:1] and (len(found) != len(wanted) or not HEX.fullmatch(wanted[1]))


def expect_faults(text: Text, deck: Deck) -> Iterator[str]:
    """What a text of `mellab expect` says that is not so of a deck."""
    if text.is_whole and text.last.split()[1] != str(len(deck.expected)):
        yield f"it has {text.last.split()[1]} expectations, and the deck {len(deck.expected)}"
    for number, it in text.failed.items():
        remark = deck.expected.get(number)
        if remark is None or not f"{it.wanted} was {it.was}".startswith(f"{remark.text} was "):
            yield f"line {number} does not expect {it.wanted}"
        elif it.line != deck.before(number) or not is_line(fields_of(it.statement), deck.statements[it.line]):
            yield f"line {it.line} is not {it.statement}"


def sweep_faults(text: Text, deck: Deck) -> Iterator[str]:
    """What a text of `mellab sweep` says that is not so of a deck."""
    marked = {deck.before(it) for it in deck.whole}
    for it in text.swept:
        if deck.statements.get(it.number, [""])[0] not in WRITING:
            yield f"line {it.number} makes no device write"
        elif armed_in(deck.lines[:it.number - 1]) is not None:
            yield f"line {it.number} has a stop, so that it is not swept"
        elif it.is_broken and it.number not in marked:
            yield f"line {it.number} is not marked as whole"
    swept = {it.number for it in text.swept}
    yield from (f"line {it} is no mark" for it in text.unswept if it not in deck.whole)
    if text.is_whole:
        yield from (f"line {it} is a mark of which nothing is said" for it in deck.whole if it not in text.unswept and deck.before(it) not in swept)


def rule_faults(text: Text, deck: Deck) -> Iterator[str]:
    """What a text names that is no rule of a deck."""
    names = {name_of(it) for it in deck.rules.values()}
    has_braces = any("{" in " ".join(it) for it in deck.rules_of("always"))
    if text.broken is not None and text.broken not in names and not has_braces:
        yield f"there is no rule {text.broken}"
    for number, line in text.unproved:
        if number and (number not in deck.rules or "{" not in " ".join(deck.rules[number]) and name_of(deck.rules[number]) != line.split()[1]):
            yield f"line {number} is no rule {line.split()[1]}"
    yield from (f"line {it} is no rule" for it in text.silent if deck.rules.get(it, [])[:1] != ["on"])


def explore_faults(text: Text, deck: Deck) -> Iterator[str]:
    """What a text of `mellab explore` says that is not so of a deck."""
    moves = [it[1:] for it in deck.rules_of("move")]
    if not moves:
        yield "the deck has no move"
    for line in text.path:
        fields = fields_of(line)
        if fields[:1] and fields[0] not in BETWEEN and not any(is_line(fields, it) for it in moves):
            yield f"{line} is no move"
    yield from rule_faults(text, deck)


def prove_faults(text: Text, deck: Deck) -> Iterator[str]:
    """What a text of `mellab prove` says that is not so of a deck."""
    if not deck.rules_of("app"):
        yield "the deck names no application"
    names = {it[1] for it in deck.rules_of("allow") if len(it) > 1}
    yield from (f"there is no allowance {it}" for it in text.amounts if it not in names)
    yield from rule_faults(text, deck)


FAULTS = {"expect": expect_faults, "sweep": sweep_faults, "explore": explore_faults, "prove": prove_faults}


def check(text: Text, lines: List[str], name: str) -> None:
    """Sees that a text is of a deck or a draft of these lines, as far as it says anything of them.

    # Errors

    BadText, if it is of another deck.
    """
    why = None
    if text.refused is not None:
        why = f"the deck has no line {text.refused[0]}" if text.refused[0] > len(lines) else None
    elif text.kind:
        why = next(FAULTS[text.kind](text, Deck(lines)), None)
    if why is not None:
        raise BadText(f"{name} is of another deck: {why}")


def campaign_of(folder: Path, decks: Path) -> List[Job]:
    """The jobs of a campaign's folder, of which each text is of its deck, if the deck is there.

    # Errors

    BadText, if there is none, or a text is of another deck.
    """
    jobs = jobs_of(folder, decks)
    if not jobs:
        raise BadText(f"{folder} has no verdicts: docs/LABORATORY.md shows how a campaign is made")
    for it in jobs:
        if it.source.is_file():
            check(it.text, it.lines, str(it.path))
    return jobs
