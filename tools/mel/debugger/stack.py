"""The frames of a stack trace, and the addresses that a client has of bytes and of code."""

from __future__ import annotations

from dataclasses import dataclass
from typing import Callable, Iterator, List, Optional, Tuple

from desktexts import Frame, Section, State, segment_of

from . import views
from .expressions import BadExpression, Names
from .stops import Stop
from .walk import Position, Walk

# The bytes of a frame of depth D are from D * 10000 on, in hexadecimal, and the code of section K from CODE + K * 10000 on.
CODE = 0x100000


@dataclass
class Spot:
    """A frame of a stack trace: what it is called, its line, its place (None for a statement), and the frame of the machine that it is in,
    of a depth from 1 on (0 if no application runs)."""

    name: str
    line: Optional[int]
    place: Optional[int]
    section: Optional[Section]
    depth: int
    state: Optional[State]
    facts: List[views.Shown]

    @property
    def frame(self) -> Optional[Frame]:
        """The frame of the machine."""
        return self.state.frames[self.depth - 1] if self.state is not None and self.depth else None

    def names(self) -> Names:
        """Returns the names that code in this frame reads.

        # Errors

        BadExpression, if no application runs.
        """
        if self.state is None or not self.depth:
            raise BadExpression("no application runs here")
        return Names(self.state, self.depth, self.section)

    def scopes(self, why: Optional[Stop]) -> Iterator[Tuple[str, List[views.Shown]]]:
        """The scopes of the frame, each with its lines."""
        if self.state is not None and self.depth:
            yield "Static", views.static(self.state, self.depth, self.section)
            if self.place is not None or any(self.state.public):
                yield "Session", views.session(self.state, self.depth, self.section)
                if self.section is not None and any(it.register == "LB" for it in self.section.names.values()):
                    yield "Locals", views.local(self.state, self.depth, self.section)
                yield "Stack", views.stack(self.state, self.depth)
                yield "Public", views.public(self.state, self.depth, self.section)
                yield "Header", views.header(self.state)
                yield "Flags", views.flags(self.state, self.depth)
        if self.facts:
            yield "Statement", self.facts + ([views.Shown("stopped", why.text)] if why is not None and why.text else [])


def spots(walk: Walk, position: Position) -> List[Spot]:
    """Returns the stack trace at a position, the running frame first and the statement last."""
    statement, state, turn = walk.statement(position), walk.state(position), walk.turn(position)
    found: List[Spot] = []
    if turn is not None:
        for depth in range(len(state.frames), 0, -1):
            found += in_frame(walk, state, depth, turn if depth == len(state.frames) else None)
    facts = [views.Shown("text", statement.text), views.Shown("turns", str(len(statement.turns)))]
    if walk.is_after(position) or not statement.turns:
        facts.append(views.Shown("result", statement.result or ""))
    depth = 1 if state.frames else 0
    section = walk.section(state.frames[0].aid, 0, None) if depth else None
    name = statement.text + (f" = {statement.result}" if walk.is_after(position) and statement.result else "")
    found.append(Spot(name, walk.line(Position(position.statement, 0)), None, section, depth, state if depth else None, facts))
    return found


def in_frame(walk: Walk, state: State, depth: int, turn: Optional[dict]) -> Iterator[Spot]:
    """The frames of a stack trace that one frame of the machine has: one for each call that has not returned, and one for its beginning."""
    frame = state.frames[depth - 1]
    line = walk.line_of(turn["source"]) if turn is not None and turn["source"] is not None else None
    section = walk.section(frame.aid, frame.place, line)
    place = frame.place
    for call in [*reversed(frame.calls), None]:
        code = section.at(place) if section is not None else None
        name = (section.label_at(call.target) or f"{call.target:04X}") if call is not None and section is not None else \
            (section.name if section is not None else frame.aid)
        yield Spot(name, code.line if code is not None else None, place, section, depth, state, [])
        place = call.caller if call is not None else place


def reference(sections: List[Section], spot: Spot) -> Optional[str]:
    """Returns the address of the code of a frame, or None if its code is of no section."""
    if spot.section is None or spot.place is None:
        return None
    return hex(CODE + sections.index(spot.section) * 0x10000 + spot.place)


def memory(walk: Optional[Walk], position: Position, address: int, count: int) -> Tuple[int, bytes]:
    """Returns up to `count` bytes from an address on, and where they begin."""
    if walk is None or address < 0:
        return max(address, 0), b""
    depth, at = divmod(address, 0x10000)
    if address >= CODE:
        index, place = divmod(address - CODE, 0x10000)
        code = b"".join(it.content for it in walk.sections[index].code) if index < len(walk.sections) else b""
        return address, code[place:place + count]
    state = walk.state(position)
    if not 1 <= depth <= len(state.frames):
        return address, b""
    base, most = segment_of(at)
    while count > 0 and state.read(depth, at, count) is None:
        count = min(count - 1, max(base + most - at, 0))
    return address, state.read(depth, at, count) or b""


def instructions(sections: List[Section], address: int, offset: int, count: int, located: Callable[[int], dict]) -> List[dict]:
    """Returns `count` instructions, the first of them `offset` from the one at an address; what is no code is said to be none. `located` returns the
    line and the file of a line of the draft."""
    index, place = divmod(address - CODE, 0x10000)
    section = sections[index] if 0 <= index < len(sections) else None
    code = section.code if section is not None else []
    first = next((at for at, it in enumerate(code) if it.place >= place), len(code)) + offset
    end = code[-1].place + len(code[-1].content) if code else 0
    labels = {at: name for name, at in section.labels.items()} if section is not None else {}
    made = []
    for at in range(first, first + count):
        if not 0 <= at < len(code):
            beyond = CODE + index * 0x10000 + (end + at - len(code) if at >= 0 else at)
            made.append({"address": hex(max(beyond, 0)), "instruction": "", "presentationHint": "invalid"})
            continue
        it = code[at]
        text = it.text.partition(":")[2].strip() if it.place in labels and it.text.startswith(labels[it.place] + ":") else it.text
        made.append({"address": hex(CODE + index * 0x10000 + it.place), "instructionBytes": it.content.hex(" ").upper(), "instruction": text,
                     **located(it.line), **({"symbol": labels[it.place]} if it.place in labels else {})})
    return made
