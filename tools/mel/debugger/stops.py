"""Where a run stops: breakpoints by line, label, place and bytes, abends, and results that were not expected."""

from __future__ import annotations

import re
from dataclasses import dataclass, field
from typing import Callable, Dict, List, Optional, Set, Tuple

from desktexts import DYNAMIC, PUBLIC, Section

from .expressions import BadExpression, Names, value_of
from .views import value_text
from .walk import Position, Walk

ABENDS = {
    "01": "an undefined instruction byte", "02": "a place outside the code", "03": "an access that is not whole in a segment",
    "04": "the stack below its floor, or a return without a call", "05": "the stack above 512 bytes",
    "06": "a length, a number or an argument out of its range", "07": "the budget of instructions is spent",
    "08": "more than 64 words would wait", "09": "a reply of more than 1,024 bytes", "0A": "a primitive that the access list denies"}
FILTERS = {"abend": "an application abends", "expectation": "a result is not what #> expects"}


@dataclass
class Stop:
    """Why a run stopped: the protocol's word, what is said of it, and the breakpoints that were hit."""

    reason: str
    text: str
    hit: List[int] = field(default_factory=list)


@dataclass
class Breakpoint:
    """A breakpoint: its number, where it is, and under which condition it stops; `message` is written in place of a stop. `path` is the file
    that the client set it in."""

    number: int
    line: Optional[int] = None
    section: Optional[Section] = None
    place: int = 0
    condition: str = ""
    count: int = 0
    message: str = ""
    hits: int = 0
    path: str = ""


@dataclass
class Watch:
    """Bytes whose changes stop a run, from the `count`-th on: of an application, or of any if `aid` is empty."""

    number: int
    aid: str
    address: int
    size: int
    name: str
    condition: str = ""
    count: int = 0
    hits: int = 0

    def is_changed_by(self, turn: dict) -> bool:
        """Whether a turn changes one of the bytes."""
        end = self.address + self.size
        of_it = self.aid in ("", turn["aid"])
        return of_it and any(at < end and self.address < at + len(digits) // 2 for at, digits in turn["sets"])

    def is_due(self) -> bool:
        """Counts a change, and returns whether a run stops at it."""
        self.hits += 1
        return self.hits >= self.count


class Stops:
    """All breakpoints; `write` writes to the client's console."""

    def __init__(self, write: Callable[[str], None]) -> None:
        self.lines: List[Breakpoint] = []
        self.functions: List[Breakpoint] = []
        self.places: List[Breakpoint] = []
        self.watches: List[Watch] = []
        self.filters: Set[str] = set(FILTERS)
        self._write = write
        self._said: Dict[Tuple[int, str], bool] = {}

    def names(self, walk: Walk, position: Position) -> Optional[Names]:
        """Returns the names that the running code at a position reads, or None if no application runs."""
        state = walk.state(position)
        if not state.frames:
            return None
        frame = state.frames[-1]
        return Names(state, len(state.frames), walk.section(frame.aid, frame.place, walk.line(position)))

    def at(self, walk: Walk, position: Position, is_back: bool) -> Optional[Stop]:
        """Returns why a run stops at a position that it has come to, or None."""
        return self._fault(walk, position, is_back) or self._place(walk, position) or self._changed(walk, position, is_back)

    def next(self, walk: Walk, position: Position, is_back: bool) -> Optional[int]:
        """Returns the next turn of the statement of a position, on a way on or back, before which a run may stop; None if there is none.
        What is left out has no reason to stop, so that a long play is gone through quickly."""
        statement = walk.statement(position)
        lines = {it.line for it in self.lines}
        places = {(it.section.aid, it.place) for it in (*self.functions, *self.places) if it.section is not None}
        way = range(position.at - 1, 0, -1) if is_back else range(position.at + 1, len(statement.turns) + 1)
        for at in way:
            turn = statement.turn(at)
            if "abend" in turn or (turn["aid"], turn["place"]) in places or lines and walk.line_of(turn["source"] or 0) in lines:
                return at
            if self.watches and any(it.is_changed_by(turn if is_back or at == 1 else statement.turn(at - 1)) for it in self.watches):
                return at
        return None

    def _fault(self, walk: Walk, position: Position, is_back: bool) -> Optional[Stop]:
        turn = walk.turn(position)
        if turn is not None and "abend" in turn and "abend" in self.filters:
            return Stop("exception", f"abend {turn['abend']}: {ABENDS.get(turn['abend'], 'an abend')}")
        if walk.is_after(position) and "expectation" in self.filters and not is_back:
            found = walk.statement(position)
            wanted = walk.unexpected(found)
            if wanted is not None:
                return Stop("exception", f"line {found.line} expected {wanted}, was {found.result or 'nothing'}")
        return None

    def _place(self, walk: Walk, position: Position) -> Optional[Stop]:
        turn, line = walk.turn(position), walk.line(position)
        if turn is None and position.at:
            return None
        found = [(it, "breakpoint") for it in self.lines if it.line == line]
        for kind, breakpoints in (("function breakpoint", self.functions), ("instruction breakpoint", self.places)):
            found += [(it, kind) for it in breakpoints if turn is not None and it.section is not None and it.section.aid == turn["aid"]
                      and it.place == turn["place"]]
        held = [(it, kind) for it, kind in found if self._holds(it, walk, position)]
        return Stop(held[0][1], "", [it.number for it, _ in held]) if held else None

    def _holds(self, it: Breakpoint, walk: Walk, position: Position) -> bool:
        if it.condition and not self._condition(it.number, it.condition, walk, position):
            return False
        it.hits += 1
        if it.count and it.hits < it.count:
            return False
        if it.message:
            self._write(self._filled(it.message, walk, position) + "\n")
            return False
        return True

    def _condition(self, number: int, text: str, walk: Walk, position: Position) -> bool:
        names = self.names(walk, position)
        try:
            return names is not None and int(value_of(text, names)) != 0
        except BadExpression as why:
            if not self._said.get((number, text)):
                self._said[number, text] = True
                self._write(f"condition {text}: {why}\n")
            return False

    def _filled(self, message: str, walk: Walk, position: Position) -> str:
        names, made, rest = self.names(walk, position), "", message
        while (start := rest.find("{")) >= 0 and (end := rest.find("}", start)) >= 0:
            try:
                value = value_text(value_of(rest[start + 1:end], names)) if names else "?"
            except BadExpression as why:
                value = f"({why})"
            made, rest = made + rest[:start] + value, rest[end + 1:]
        return made + rest

    def _changed(self, walk: Walk, position: Position, is_back: bool) -> Optional[Stop]:
        """Forward a run stops after the turn that changes watched bytes, and back right before it."""
        if not self.watches:
            return None
        statement, at = walk.statement(position), position.at if is_back else position.at - 1
        if not 1 <= at <= len(statement.turns):
            return None
        turn = statement.turn(at)
        hit = [it for it in self.watches if it.is_changed_by(turn)
               and (not it.condition or self._condition(it.number, it.condition, walk, position)) and it.is_due()]
        what = "changes here" if is_back else f"was changed by {turn['ins']}" + (f" in line {turn['source']}" if turn["source"] else "")
        return Stop("data breakpoint", f"{hit[0].name} {what}", [it.number for it in hit]) if hit else None


def watch_id(aid: str, address: int, size: int, name: str) -> str:
    """Returns the protocol's name of watched bytes; public ones are every application's."""
    return f"{'' if address >= PUBLIC else aid}:{address}:{size}:{name}"


def watch_of(data_id: str, number: int, condition: str, count: int) -> Optional[Watch]:
    """Returns the watch of such a name, or None if it is none."""
    fields = data_id.split(":", 3)
    if len(fields) != 4 or not all(re.fullmatch("[0-9]{1,6}", it) for it in fields[1:3]):
        return None
    return Watch(number, fields[0], int(fields[1]), int(fields[2]), fields[3], condition, count)


def is_kept(address: int) -> bool:
    """Whether a watched address means the same bytes in every command."""
    return address < DYNAMIC
