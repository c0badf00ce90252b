"""Where a debugger stands in a play, and how it goes forward and back.

A statement that runs code has a position before it, one before each of its turns, and one after them, when its result is known; any other
statement has the one before it, and the one after it if its result was not expected.
"""

from __future__ import annotations

from bisect import bisect_left
from dataclasses import dataclass
from typing import Callable, Dict, List, Optional, Tuple

from desktexts import Play, Refused, Section, State, Statement
from labtexts import remarks_of

Level = Tuple[int, int]


@dataclass(frozen=True)
class Position:
    """A statement, counted from 0, and a place in it: 0 is before it, K before its turn K, and one more than its turns after it."""

    statement: int
    at: int


def holds(pattern: str, result: str) -> bool:
    """Whether an expectation holds: `?` is any character, `*` any or none, letters are in either case, and blanks are nothing. Each part between
    two `*` is taken where it comes first, so that the time is bounded by the product of both lengths."""
    letters, rest = pattern.replace(" ", "").replace("\t", "").lower(), result.replace(" ", "").lower()
    first, *parts = letters.split("*")
    if not letters or not begins(first, rest) or not parts and len(first) != len(rest):
        return False
    rest = rest[len(first):]
    for part in parts[:-1]:
        at = next((it for it in range(len(rest) - len(part) + 1) if begins(part, rest[it:it + len(part)])), None)
        if at is None:
            return False
        rest = rest[at + len(part):]
    return not parts or len(parts[-1]) <= len(rest) and begins(parts[-1], rest[len(rest) - len(parts[-1]):])


def begins(part: str, text: str) -> bool:
    """Whether a text begins with a part, in which `?` is any character."""
    return len(part) <= len(text) and all(it in ("?", character) for it, character in zip(part, text))


def expectations_of(lines: List[str], statements: List[int]) -> Dict[int, List[str]]:
    """Returns the patterns that a deck has for the result of each of its statements, by the numbers of their lines. `statements` are these
    numbers, ascending."""
    found: Dict[int, List[str]] = {}
    for remark in remarks_of(lines):
        above = bisect_left(statements, remark.number)
        if remark.mark == "#>" and above:
            found.setdefault(statements[above - 1], []).append(remark.text)
    return found


class Walk:
    """A play, and the place of each of its lines in the draft.

    `line_of` takes the number of a line as the play has it and returns that of the draft; `expected` are the patterns for the results of
    statements by their lines.
    """

    def __init__(self, play: Play, sections: List[Section], line_of: Callable[[int], int], expected: Dict[int, List[str]]) -> None:
        self.play, self.sections, self.line_of, self._expected = play, sections, line_of, expected

    # ---- positions

    def statement(self, position: Position) -> Statement:
        """Returns the statement of a position.

        # Errors

        Refused, if a play without statements has none.
        """
        found = self.play.statement(position.statement)
        if found is None:
            raise Refused("the draft has no statement", 1)
        return found

    def unexpected(self, statement: Statement) -> Optional[str]:
        """Returns an expectation of a statement that does not hold, or None."""
        return next((it for it in self._expected.get(statement.line, []) if not holds(it, statement.result or "")), None)

    def last(self, number: int) -> Optional[Position]:
        """Returns the last position of a statement, or None if there is no such statement."""
        found = self.play.statement(number) if number >= 0 else None
        if found is None:
            return None
        has_end = found.turns or self.unexpected(found) is not None
        return Position(number, len(found.turns) + 1 if has_end else 0)

    def step(self, position: Position, is_back: bool = False) -> Optional[Position]:
        """Returns the next position, or the one before; None at the end and at the beginning."""
        if is_back:
            return Position(position.statement, position.at - 1) if position.at else self.last(position.statement - 1)
        if position != self.last(position.statement):
            return Position(position.statement, position.at + 1)
        return Position(position.statement + 1, 0) if self.play.statement(position.statement + 1) is not None else None

    def turn(self, position: Position) -> Optional[dict]:
        """Returns the turn that is due at a position, or None."""
        found = self.statement(position)
        return found.turn(position.at) if 1 <= position.at <= len(found.turns) else None

    def is_after(self, position: Position) -> bool:
        """Whether the statement of a position is done."""
        return position.at > len(self.statement(position).turns)

    def level(self, position: Position) -> Level:
        """Returns how deep the code at a position is; that of statements is (0, 0)."""
        return self.statement(position).level(position.at) if self.turn(position) else (0, 0)

    def line(self, position: Position) -> Optional[int]:
        """Returns the draft's line at a position."""
        turn = self.turn(position)
        found = turn["source"] if turn else self.statement(position).source
        return None if found is None else self.line_of(found)

    def section(self, aid: str, place: int, line: Optional[int]) -> Optional[Section]:
        """Returns the section of an application whose code has an instruction of a line at a place, or any of its sections."""
        found = [it for it in self.sections if it.aid == aid]
        same = [it for it in found if (code := it.at(place)) is not None and code.line == line]
        return (same or found or [None])[0]  # type: ignore[list-item]

    def state(self, position: Position) -> State:
        """Returns the state at a position. Before a statement it is that in which its first turn finds the card, and one without turns has
        at most what its own `dump` shows."""
        found = self.statement(position)
        if not found.records:
            return self._dumped(found)
        if not found.turns:
            return found.after()
        return found.after() if self.is_after(position) else found.before(max(position.at, 1))

    def _dumped(self, statement: Statement) -> State:
        fields, (word, _, digits) = statement.text.split(), (statement.result or "").partition(" ")
        state = State()
        if fields[:1] == ["dump"] and word == "static" and len(fields) == 2:
            content = digits.strip()
            sets = [[0, content]] if content else []
            aid = next((it.aid for it in self.sections if it.name == fields[1]), fields[1].upper())
            state.begin({"frame": 1, "aid": aid, "sets": sets}, {aid: (len(content) // 2, 0)})
        return state

    # ---- writes

    def next_write(self, position: Position) -> Optional[int]:
        """Returns the first device write that the turn of a position or a later one of its statement makes."""
        found = self.statement(position)
        later = (found.turn(it)["writes"] for it in range(max(position.at, 1), len(found.turns) + 1))
        return next((it[0] for it in later if it), None)
