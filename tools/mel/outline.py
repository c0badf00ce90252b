#!/usr/bin/env python3
"""Writes the skeleton of a proof outline of an application, from its section in a deck; or says whether an outline still has its places.

    tools/mel/outline.py DECK NAME                 writes the skeleton
    tools/mel/outline.py DECK NAME --into FOLDER   makes a crate in FOLDER (crates/CRATE) with the definitions of the application and the skeleton
    tools/mel/outline.py DECK NAME --check FILE    compares the places of the outline in FILE, an .antt file, with those of the code

NAME is that of an `app` section of the deck. The skeleton has a line for each place of the code that can be reached from place 0: its
instruction, where it leads, what it does to static bytes, and what is to be shown there. A place that control comes to from more than one
place (a join), from a later place (the head of a loop), or after static or public bytes changed has a predicate of its own; from there on
each place has it until the next such place. The check reads the skeleton as it is: its definitions say little (static bytes are as many as
they are), so that most of it is proved, and a `?` in it is a goal that `rt check --allow-holes` prints. The writer says more, and more goals
are left.

Of code that `melcard check` accepts each place has one DT, and each call one LB: the skeleton names both, the bytes of the stack, and those
that a call saved. A place of a routine that is called from more than one place has a line for each, as at71from32, where the call returns to
32. What waits under protection is named in its order, as long as the code says where it is written. After a comparison the flags have an
equation, found7, that says what was compared; a conditional jump passes what it decides on to the places after it, until an operand changes.

With --into the crate's files are src/lib.rt, specs/Lib.antt, specs/NAME.antt, proofs/Lib.antt and proofs/NAMEOutline.antt; a file that is
there already is an error, and none is written then. The line for crates.txt is printed.

With --check it ends with 0 if the outline has exactly the places of the code, its code's length and its session bytes, and if each
instruction that FILE names is the code's; else with 1, a line for each difference.

Code that leads to a place where no line of its listing begins is refused, as `melcard check` refuses it.

It needs Python 3.9 and `melcard`, built by tools/build or by `rt ci`. It ends with 2 if it is called wrongly or the section is refused.
"""

import argparse
import re
import subprocess
import sys
from pathlib import Path
from dataclasses import dataclass, field
from typing import Dict, Iterator, List, Optional, Set, Tuple

from card import program_path
from labtexts import fields_of, lines_of, read

STATIC, DYNAMIC, END, PUBLIC, PUBLIC_END = 0, 0x8000, 0x8200, 0xC000, 0xC411
SB, ST, DB, LB, DT, PB, PT = range(1, 8)
EQ, LT, LE, GT, GE, NE, ALL = range(1, 8)
# The numbers of the rows with an address, and those of them that write n bytes there; None is the n that the instruction has.
LOAD, STORE, LOADI, STOREI, LOADA, INDEX = range(0x07, 0x0D)
WRITES: Dict[int, Optional[int]] = {STORE: None, 0x0D: 1, 0x0F: 1, 0x10: 1, 0x11: 2, 0x13: 2, 0x14: 2, 0x15: None,
                                    **{op: None for op in (0x17, 0x18, 0x19, 0x1B, 0x1C, 0x1D, 0x1E, 0x1F)}}
SETS_FLAGS = {0x0E, 0x0F, 0x10, 0x12, 0x13, 0x14, *range(0x15, 0x20)}
# Rows that write what their own bytes say; those that write bytes from the stack, or bytes made of each of them.
CONSTANT, FROM_STACK = {0x0D, 0x11, 0x15}, {STORE, 0x1D, 0x1E, 0x1F}
UP_TO_16 = {0x17, 0x18, 0x1B, 0x1C}
# The primitives, by (number of argument bytes, number): what each pops and pushes.
PRIMITIVES = {(0, 1): (1, 0), (0, 2): (0, 1), (0, 3): (1, 0), (0, 4): (3, 1), (0, 5): (6, 0), (0, 6): (6, 0), (0, 7): (2, 0), (0, 8): (2, 0),
              (0, 9): (6, 0), (1, 1): (4, 0), (1, 2): (4, 0), (1, 3): (0, 0), **{(1, n): (6, 0) for n in (4, 5, 6, 7, 10, 11)},
              **{(1, n): (8, 0) for n in (8, 9, 12)}, (2, 1): (0, 0), (2, 2): (0, 0), (2, 3): (0, 0), (3, 1): (0, 0)}
# Rows that take n bytes at a place and the n bytes on top; those that compare, with their number of bytes; and what a condition looks at.
PAIRS = {STORE, *range(0x1A, 0x20)}
COMPARES: Dict[int, Optional[int]] = {0x0E: 1, 0x12: 2, 0x16: None, 0x1A: None}
TESTN = 0x16
LOOKS_AT = {EQ: "z", NE: "z", LT: "c", GE: "c", LE: "cz", GT: "cz"}
# The most bytes of a stack that have names, and the most lines of a skeleton.
NAMED, MOST = 32, 600
PROTECTION, DELEGATION, WRITE_ANYWHERE = (1, 3), (0, 7), {(0, 6), (0, 8), (0, 9), *((1, n) for n in (2, 4, 5, 6, 7, 8, 9, 10, 11, 12))}
FLAG_PRIMITIVES = {(0, 1), (0, 3), (0, 4), (0, 5), (0, 8), (1, 1), (2, 1), (2, 2), (2, 3), (3, 1)}


class NotDone(Exception):
    """Why nothing can be written."""


# ---- the section


@dataclass
class Section:
    """An application of a deck: its names, its assembly text, its data, and the sizes that its `load` line gives."""

    name: str
    aid: bytes = b""
    text: List[str] = field(default_factory=list)
    data: bytes = b""
    static: int = 0
    session: int = 0
    is_loaded: bool = False


def hex_of(fields: List[str], number: int, what: str) -> bytes:
    """The bytes of fields of a line.

    # Errors

    NotDone, if they are no hexadecimal bytes.
    """
    digits = "".join(fields)
    if not re.fullmatch("(?:[0-9A-Fa-f]{2})*", digits):
        raise NotDone(f"line {number} of the deck: {what} has no hexadecimal bytes")
    return bytes.fromhex(digits)


def section_of(lines: List[str], name: str) -> Section:
    """The section of a name, with the sizes of its first `load` line.

    # Errors

    NotDone, if there is none, or what was read here of it is malformed.
    """
    found: Optional[Section] = None
    is_inside = is_ours = False
    for number, line in enumerate(lines, 1):
        fields = fields_of(line)
        if is_inside and fields == ["end"]:
            is_inside = is_ours = False
        elif is_inside and fields[:1] == ["DATA"]:
            if is_ours and found is not None:
                found.data += hex_of(fields[1:], number, "DATA")
        elif is_inside:
            if is_ours and found is not None:
                found.text.append(line)
        elif fields[:1] == ["app"]:
            is_inside, is_ours = True, fields[1:2] == [name] and found is None
            found = Section(name, hex_of(fields[2:3], number, "the name")) if is_ours else found
        elif found is not None and fields[:2] == ["load", name] and len(fields) == 4 and not found.is_loaded:
            if not all(re.fullmatch("[0-9]{1,5}", it) for it in fields[2:]):
                raise NotDone(f"line {number} of the deck: load has two sizes")
            found.static, found.session, found.is_loaded = int(fields[2]), int(fields[3]), True
    if found is None:
        raise NotDone(f"the deck has no section `app {name}`")
    if is_ours:
        raise NotDone(f"the section `app {name}` has no end")
    if not re.fullmatch("[A-Za-z0-9_]{1,32}", name) or not 5 <= len(found.aid) <= 16:
        raise NotDone(f"the line `app {name}` has a malformed name")
    if not found.is_loaded:
        found.static = len(found.data)
    return found


def melcard(job: str, text: str) -> str:
    """What a job of `melcard` writes of a text."""
    done = subprocess.run([program_path("melcard"), job], input=text.encode(), stdout=subprocess.PIPE, check=False)
    written = done.stdout.decode(errors="replace")
    if done.returncode:
        raise NotDone(f"melcard {job} ended with {done.returncode}: {written.strip()}")
    return written


# ---- instructions


@dataclass
class Ins:
    """An instruction: its place, the next one's, its byte in two parts, its operand bytes, and its text in the listing."""

    at: int
    after: int
    op: int
    tag: int
    rest: bytes
    text: str = ""

    def word(self, start: int) -> int:
        """The word at a place of the operand bytes."""
        return int.from_bytes(self.rest[start:start + 2], "big")

    def signed(self, start: int) -> int:
        """The same as a signed number."""
        return int.from_bytes(self.rest[start:start + 2], "big", signed=True)

    @property
    def pair(self) -> Tuple[int, int]:
        """A primitive, as the number of its argument bytes and its number."""
        return self.tag, self.rest[0]

    @property
    def is_primitive(self) -> bool:
        return self.op == 5 and self.tag < 4

    @property
    def length(self) -> int:
        """The n of a row with an address."""
        return self.rest[0]


def operand_bytes(op: int, tag: int) -> Optional[int]:
    """The number of bytes after an instruction byte, or None if it begins no instruction."""
    if op == 0:
        return (0, 2, 2, 4, 0, 2, 2, 4)[tag]
    if op == 1:
        return 1 if tag else None
    if op in (2, 3):
        return 2 if tag else 0
    if op == 4:
        return (1, 1, 2, None, 1, 0, 0, None)[tag]
    if op == 5:
        return (1, 2, 3, 4, 0, 1, 1, 2)[tag]
    if op == 6:
        return None
    own = 0 if op == LOADA else 2 if op in (0x11, 0x12, 0x13, 0x14) else 1
    return own + (2 if tag else 0)


def decoded(code: bytes, listing: List[str]) -> Dict[int, Ins]:
    """The instructions of code by their places, with the lines of the listing, which has one for each."""
    found: Dict[int, Ins] = {}
    at = 0
    for text in listing:
        op, tag = divmod(code[at], 8)
        size = operand_bytes(op, tag)
        if size is None or at + 1 + size > len(code):
            raise NotDone(f"no instruction at place {at}")
        found[at] = Ins(at, at + 1 + size, op, tag, code[at + 1:at + 1 + size], text)
        at += 1 + size
    if at != len(code):
        raise NotDone(f"the listing ends at place {at} of {len(code)}")
    return found


def always_abends(ins: Ins) -> bool:
    """Whether an instruction abends by its own bytes."""
    if ins.op == 4:
        return ins.tag in (0, 4) and ins.rest[0] == 0
    if ins.is_primitive:
        return ins.pair not in PRIMITIVES or ins.pair == PROTECTION and ins.rest[1] > 3
    if ins.op in UP_TO_16:
        return not 1 <= ins.length <= 16
    return ins.op in (LOAD, STORE, LOADI, STOREI, 0x15, 0x16, *range(0x19, 0x20)) and ins.length == 0


def moved(ins: Ins, height: int) -> Optional[int]:
    """The height of the stack after an instruction, from that before it, or None if the code says nothing of it."""
    if ins.op == 4:
        n = ins.rest[0] if ins.rest else 0
        return height + (n, 1, 2, 0, -n, -1, -2)[ins.tag]
    if ins.is_primitive:
        pops, pushes = PRIMITIVES[ins.pair]
        return height - pops + pushes
    if ins.op in (2, 3) and ins.tag == 0:
        return None
    if ins.op in (LOAD, LOADI):
        return height + ins.length
    if ins.op in (STORE, STOREI):
        return height - ins.length
    if ins.op in (LOADA, INDEX):
        return height + (2 if ins.op == LOADA else -1 if ins.tag == 0 else 1)
    return height


def need(ins: Ins) -> int:
    """The bytes of the stack that an instruction needs."""
    if ins.op == 4:
        return (ins.rest[0] if ins.rest else 0, 1, 2)[ins.tag - 4] if ins.tag >= 4 else 0
    if ins.is_primitive:
        own = {(2, 1): 1, (3, 1): 2}.get(ins.pair, ins.rest[1] if ins.pair in ((2, 2), (2, 3)) else 0)
        return max(own, PRIMITIVES.get(ins.pair, (0, 0))[0])
    if ins.op < LOAD or ins.op == LOADA:
        return 0
    top = ins.tag == 0
    if ins.op in PAIRS:
        return ins.length * (2 if top else 1)
    if ins.op in (LOADI, STOREI, INDEX):
        return {LOADI: 2 if top else 0, STOREI: ins.length + (2 if top else 0), INDEX: 3 if top else 1}[ins.op]
    sizes = {**WRITES, **COMPARES, 0x0E: 1, 0x10: 1, 0x12: 2}
    return (sizes.get(ins.op) or ins.length) if top else 0


# ---- where an instruction leads


@dataclass
class Way:
    """A way on from an instruction: a place, with what the flags must be, and whether the public segment may be any there."""

    to: int
    flags: Tuple[Tuple[str, str], ...] = (("c", "z"),)
    is_delegated: bool = False
    is_call: bool = False


# What C and Z are where a condition holds, and where not; a letter is any.
HOLD: Dict[int, Tuple[List[Tuple[str, str]], List[Tuple[str, str]]]] = {
    EQ: ([("c", "true")], [("c", "false")]), NE: ([("c", "false")], [("c", "true")]),
    LT: ([("true", "z")], [("false", "z")]), GE: ([("false", "z")], [("true", "z")]),
    LE: ([("true", "z"), ("false", "true")], [("false", "false")]), GT: ([("false", "false")], [("true", "z"), ("false", "true")]),
    ALL: ([("c", "z")], []),
}


def ways(ins: Ins) -> List[Way]:
    """The ways on from an instruction, to places by number."""
    if always_abends(ins) or ins.op == 0 and ins.tag >= 4 or ins.op == 5 and ins.tag >= 4:
        return []
    if ins.op not in (1, 2, 3):
        return [Way(ins.after, is_delegated=ins.is_primitive and ins.pair == DELEGATION)]
    if ins.tag == 0:
        return [Way(ins.after, is_call=True)] if ins.op == 3 else []
    to = ins.after + int.from_bytes(ins.rest, "big", signed=True) if ins.op == 1 else ins.word(0)
    holds, fails = HOLD[ins.tag]
    found = [Way(to, tuple(holds), is_call=ins.op == 3), *([Way(ins.after, tuple(fails))] if fails else [])]
    return found + ([Way(ins.after, is_call=True)] if ins.op == 3 else [])


def leads(ins: Ins) -> str:
    """Where an instruction leads, in words."""
    if always_abends(ins):
        return "always abends"
    if ins.op == 0 and ins.tag >= 4:
        return "exits"
    if ins.op == 5 and ins.tag >= 4:
        return "returns to the place after its call"
    if ins.op in (2, 3) and ins.tag == 0:
        return "on to the place on the stack" + (", and to the one after the call" if ins.op == 3 else "")
    names = {EQ: "Z", NE: "not Z", LT: "C", GE: "not C", LE: "C or Z", GT: "neither C nor Z"}
    found = ways(ins)
    if ins.op == 3:
        return f"calls {found[0].to}" + (f" if {names[ins.tag]}" if ins.tag != ALL else "") + f", on to {ins.after}"
    if ins.op in (1, 2) and ins.tag != ALL:
        return f"on to {found[0].to} if {names[ins.tag]}, else to {found[1].to}"
    return ("delegates, on to " if found[0].is_delegated else "on to ") + str(found[0].to)


# ---- what an instruction does to static bytes


def may_write(ins: Ins, section: Section, start: int, end: int) -> bool:
    """Whether an instruction may write to an address from `start` on and below `end`; the top of the stack is no address."""
    if start >= end or always_abends(ins):
        return False
    if ins.is_primitive:
        return ins.pair in WRITE_ANYWHERE
    if ins.op == STOREI:
        return True
    if ins.op not in WRITES or ins.tag == 0:
        return False
    size, offset = WRITES[ins.op] or ins.length, ins.signed(len(ins.rest) - 2)
    low = {SB: STATIC, ST: section.static, DB: DYNAMIC, LB: DYNAMIC + section.session, DT: DYNAMIC + section.session, PB: PUBLIC, PT: PUBLIC_END}
    high = {**low, LB: END, DT: END}
    return low[ins.tag] + offset < end and high[ins.tag] + offset + size > start


def static_write(ins: Ins, section: Section) -> bool:
    """Whether it may write static bytes."""
    return may_write(ins, section, STATIC, section.static)


def public_write(ins: Ins, section: Section) -> bool:
    """Whether it may write public bytes; SETSW and its kin do."""
    return ins.op == 0 and ins.tag in (1, 2, 3) or may_write(ins, section, PUBLIC, PUBLIC_END)


def stack_write(ins: Ins, section: Section, start: int) -> bool:
    """Whether it may write dynamic bytes from an address on that it leaves there."""
    on_top = ins.op in WRITES and ins.tag == 0 or ins.is_primitive and ins.pair in ((2, 1), (2, 2), (2, 3), (3, 1))
    return on_top or may_write(ins, section, start, END)


# ---- the shape of the code


@dataclass(frozen=True)
class Call:
    """An open call: the place that it returns to, and LB before it and in its routine, as bytes above the floor."""

    back: int
    saved: int
    base: int


# A place, with the calls that are open there, the newest last.
Spot = Tuple[int, Tuple[Call, ...]]
# The address and the number of the bytes of each write that waits.
Pieces = Tuple[Tuple[int, int], ...]


@dataclass
class Place:
    """A place of the code that can be reached: its instruction, the calls that are open, the places before it, what is known of stack and
    protection there, what waits (None: it is not known), and the place whose predicate it has."""

    ins: Ins
    calls: Tuple[Call, ...] = ()
    before: List[Spot] = field(default_factory=list)
    heights: Set[Optional[int]] = field(default_factory=set)
    protections: Set[bool] = field(default_factory=set)
    pieces: Optional[Pieces] = None
    is_loop: bool = False
    is_called: bool = False
    is_changed: bool = False
    is_shared: bool = False
    head: Spot = (0, ())

    @property
    def spot(self) -> Spot:
        return self.ins.at, self.calls

    @property
    def name(self) -> str:
        """Its place, and where its calls return to, if the place has several lines."""
        return str(self.ins.at) + ("".join(f"from{call.back}" for call in self.calls) if self.is_shared else "")

    @property
    def height(self) -> Optional[int]:
        """The one height of its stack above the floor, or None."""
        return next(iter(self.heights)) if len(self.heights) == 1 else None

    @property
    def base(self) -> int:
        """LB, as bytes above the floor."""
        return self.calls[-1].base if self.calls else 0

    @property
    def is_join(self) -> bool:
        return len(self.before) > 1

    @property
    def is_head(self) -> bool:
        """Whether the writer's predicate is wanted."""
        return self.ins.at == 0 or self.is_join or self.is_loop or self.is_called or self.is_changed


Places = Dict[Spot, Place]


class Unclear(Exception):
    """Code whose stack is not known at each place, as `melcard check` refuses it."""


def protection_after(ins: Ins, is_on: bool) -> bool:
    """Whether protection is on after an instruction."""
    return ins.rest[1] >= 2 if ins.is_primitive and ins.pair == PROTECTION and not always_abends(ins) else is_on


def is_return(ins: Ins) -> bool:
    return ins.op == 5 and ins.tag >= 4


def return_counts(ins: Ins) -> Tuple[int, int]:
    """The bytes that a return takes from its caller's stack, and those that it leaves there."""
    return (ins.rest[0] if ins.tag in (5, 7) else 0), (ins.rest[-1] if ins.tag in (6, 7) else 0)


def onward(place: Place) -> List[Tuple[Spot, Optional[int], Way]]:
    """The ways on from a place whose stack is known, through calls and returns, each with the height there.

    # Errors

    Unclear, if a place or a height is not known.
    """
    ins, calls, height = place.ins, place.calls, place.height
    if height is None or height < place.base or ins.op in (2, 3) and ins.tag == 0 or is_return(ins) and not calls or len(calls) > 8:
        raise Unclear
    if always_abends(ins) or height < need(ins):
        return []
    if is_return(ins):
        less, more = return_counts(ins)
        return [((calls[-1].back, calls[:-1]), calls[-1].base - 4 - less + more, Way(calls[-1].back))]
    found = ways(ins)
    if ins.op == 3:
        inside = calls + (Call(ins.after, place.base, height + 4),)
        return [((found[0].to, inside), height + 4, found[0]), *(((way.to, calls), height, way) for way in found[1:-1])]
    return [((way.to, calls), moved(ins, height), way) for way in found]


def openly(place: Place) -> List[Tuple[Spot, Optional[int], Way]]:
    """The ways on from a place of code whose stack is not known everywhere: after a call nothing is known of it."""
    height = place.height
    after = None if height is None or always_abends(place.ins) else moved(place.ins, height)
    return [((way.to, ()), None if way.is_call else after, way) for way in ways(place.ins)]


@dataclass
class Shape:
    """The places of code that can be reached, and whether the stack is known at each."""

    places: Places
    is_clear: bool

    def on_from(self, place: Place) -> List[Tuple[Spot, Optional[int], Way]]:
        return onward(place) if self.is_clear else openly(place)

    def spread(self, code: Dict[int, Ins]) -> None:
        """Finds all places that can be reached, with heights and protection; a second height is as good as none."""
        found: List[Tuple[Spot, Optional[int], bool]] = [((0, ()), 0, False)]
        while found:
            spot, height, is_on = found.pop()
            if spot[0] not in code:
                raise NotDone(f"the code leads to place {spot[0]}, where no instruction begins")
            place = self.places.setdefault(spot, Place(code[spot[0]], spot[1]))
            height = height if height is None or len(place.heights | {height}) == 1 else None
            if self.is_clear and (height is None or len(self.places) > MOST):
                raise Unclear
            if height in place.heights and is_on in place.protections:
                continue
            place.heights.add(height)
            place.protections.add(is_on)
            found += [(to, after, protection_after(place.ins, is_on)) for to, after, _ in self.on_from(place)]

    def lay(self, section: Section) -> None:
        """Finds what waits at each place; what two ways bring differently is not known."""
        found: List[Tuple[Spot, Optional[Pieces]]] = [((0, ()), ())]
        seen: Set[Spot] = set()
        while found:
            spot, pieces = found.pop()
            place = self.places[spot]
            if len(place.protections) > 1 or spot in seen and place.pieces != pieces:
                pieces = None
            if spot in seen and place.pieces == pieces:
                continue
            seen.add(spot)
            place.pieces = pieces
            found += [(to, pieces_after(place, section)) for to, _, _ in self.on_from(place)]

    def mark(self, section: Section) -> None:
        """Marks joins, heads of loops and places after a change, and gives each place its head."""
        for spot in sorted(self.places, key=order):
            place = self.places[spot]
            for to, _, way in self.on_from(place):
                target = self.places[to]
                target.is_called |= way.is_call and not self.is_clear
                target.is_changed |= way.is_delegated or public_write(place.ins, section) or changes_static(place, section)
                target.is_shared |= any(at == to[0] and calls != to[1] for at, calls in self.places)
                if spot not in target.before:
                    target.before.append(spot)
        self.mark_loops()
        for spot in sorted(self.places, key=order):
            seen = spot
            while not self.places[seen].is_head:
                seen = self.places[seen].before[0]
            self.places[spot].head = seen

    def mark_loops(self) -> None:
        """Marks each place to which a way leads from a place that comes after it on the same path."""
        open_places: Set[Spot] = set()
        done: Set[Spot] = set()
        work: List[Tuple[Spot, bool]] = [((0, ()), False)]
        while work:
            spot, is_left = work.pop()
            if is_left:
                open_places.discard(spot)
                done.add(spot)
            elif spot in open_places:
                self.places[spot].is_loop = True
            elif spot not in done:
                open_places.add(spot)
                work.append((spot, True))
                work += [(to, False) for to, _, _ in self.on_from(self.places[spot])]


def order(spot: Spot) -> Tuple[int, List[int]]:
    """Places in the order of the code, and those with several lines in that of their calls."""
    return spot[0], [call.back for call in spot[1]]


def changes_static(place: Place, section: Section) -> bool:
    """Whether static bytes may be others after an instruction."""
    ins = place.ins
    if ins.is_primitive and ins.pair == PROTECTION and not always_abends(ins):
        return ins.rest[1] in (1, 3) and place.pieces != ()
    return place.protections != {True} and static_write(ins, section)


def static_span(ins: Ins, section: Section) -> Optional[Tuple[int, int]]:
    """The first static byte that a row with an address by SB or ST takes, and the one after its last, or None."""
    size = WRITES[ins.op] or ins.length if ins.op in WRITES else COMPARES[ins.op] or ins.length if ins.op in COMPARES else ins.length
    low = (section.static if ins.tag == ST else 0) + ins.signed(len(ins.rest) - 2)
    return (low, low + size) if ins.tag in (SB, ST) and 0 <= low and low + size <= section.static else None


def pieces_after(place: Place, section: Section) -> Optional[Pieces]:
    """What waits after an instruction, from what waits before it."""
    ins, pieces = place.ins, place.pieces
    if ins.is_primitive and ins.pair == PROTECTION or place.protections == {False}:
        return ()
    if pieces is None or not static_write(ins, section):
        return pieces
    span = static_span(ins, section) if ins.op in WRITES else None
    if span is None or sum(size for _, size in pieces) + span[1] - span[0] > NAMED:
        return None
    return pieces + ((span[0], span[1] - span[0]),)


def shape(code: Dict[int, Ins], section: Section) -> Shape:
    """The places of code that can be reached from place 0."""
    try:
        found = Shape({}, True)
        found.spread(code)
    except Unclear:
        found = Shape({}, False)
        found.spread(code)
    found.lay(section)
    found.mark(section)
    found.places = {spot: found.places[spot] for spot in sorted(found.places, key=order)}
    return found


# ---- the skeleton

# What the proofs of an outline mostly cite; `rt tidy` drops the rest.
IMPORTS = """\
use Rattle.std.proofs.Common.{◌≡◌, ℕ, zero, suc, ◌+◌, ◌-◌, ◌*◌, ◌/◌, ◌%◌, ◌^◌, ◌<◌, ◌≤◌, Bool, true, false, List, [], ◌∷◌, ◌++◌, length, take, drop, refl, sym, ap, subst, ◌∙◌, arith}
use Rattle.std.specs.Prelude.{⊤, ◌≢◌, ◌⊎◌, ◌||◌, slice_index}
use Rattle.model_device.specs.Bytes.{bytes, num, splice}
use Rattle.model_device.specs.Pieces.{touched_words}
use Rattle.model_machine.specs.Apdu.{ApduParts}
use Rattle.model_machine.specs.Blocks.{Worked, sub_blocks, is_zero}
use Rattle.model_machine.specs.Code.{instruction_at}
use Rattle.model_machine.specs.Frame.{Frame, bytes_at, write_effect, too_many, new_public, session_of, sw_of}
use Rattle.model_machine.specs.Primitives.{Around, Done, later_causes, prim_effect}
use Rattle.model_machine.specs.Row.{causes, effect, row}
use Rattle.law_promise.specs.History.{with_event}
use Rattle.law_promise.specs.Outline.{Entry, BySelection, ByDelegation, Outline, IsShown, FitsEntry, public_size, ExitShown, FetchShown, first_frame_of}
""".splitlines()


@dataclass(frozen=True)
class Fact:
    """What a comparison decided: its place, the flag, what it is (a flag's name, or true or false), and the variables that were compared; a
    byte that is no longer on the stack has a name of its own, u58_0 of the first one that was compared at 58."""

    at: str
    flag: str
    value: str
    of: Tuple[str, ...]
    is_whole: bool = False

    @property
    def name(self) -> str:
        return f"{self.flag}{self.at}"

    @property
    def text(self) -> str:
        """As the premise of a place."""
        found = " ".join((f"found{self.at}", *self.of))
        return f"{found} ≡ {self.value}" if self.is_whole else f"({found}).{self.flag} ≡ {self.value}"


@dataclass
class Writer:
    """What a skeleton is written of."""

    section: Section
    code: bytes
    shape: Shape
    crate: str = "CRATE"
    known_facts: Dict[Spot, List[Fact]] = field(default_factory=dict)

    @property
    def places(self) -> Places:
        return self.shape.places

    @property
    def size(self) -> int:
        return len(self.code)

    @property
    def word(self) -> str:
        """The application's name in the names of definitions."""
        return re.sub(r"\W", "_", self.section.name).lower()

    @property
    def title(self) -> str:
        return "".join(it.capitalize() for it in self.word.split("_"))

    @property
    def cells(self) -> List[str]:
        """The names of the static bytes, where they are few."""
        return [f"b{n}" for n in range(self.section.static)] if self.section.static <= 64 else []

    @property
    def fixed(self) -> Tuple[str, str]:
        """The variable of the static bytes, and its type."""
        return ("v", "Cells") if self.cells else ("fixed", "List ℕ")

    def stack(self, place: Place) -> List[str]:
        """The session bytes and those on the stack, where its height is known and they are few: names, and what calls saved."""
        session = [f"s{n}" for n in range(self.section.session)] if self.section.session <= 8 else []
        high = place.height or 0
        if len(session) != self.section.session or high > NAMED:
            return session
        cells = [f"x{n}" for n in range(high)]
        for call in place.calls:
            saved = (DYNAMIC + len(session) + call.saved).to_bytes(2, "big") + call.back.to_bytes(2, "big")
            cells[call.base - 4:call.base] = [f"0x{it:02X}" for it in saved]
        return session + cells

    def names(self, place: Place) -> List[str]:
        """The variables of those."""
        return [it for it in self.stack(place) if not it.startswith("0x")]

    def is_known(self, place: Place) -> bool:
        """Whether the depth of the stack is known."""
        return place.height is not None

    def is_whole(self, place: Place) -> bool:
        """Whether each byte of the stack is seen."""
        return self.is_known(place) and len(self.stack(place)) == self.section.session + (place.height or 0)

    def protection(self, place: Place) -> str:
        """`on` where protection is, `off` where not, `any` where either."""
        return "any" if len(place.protections) > 1 else "on" if True in place.protections else "off"

    def waiting(self, place: Place) -> List[List[str]]:
        """The variables of the bytes that wait, a list for each write."""
        found: List[List[str]] = []
        for _, size in place.pieces or ():
            first = sum(map(len, found))
            found.append([f"w{n}" for n in range(first, first + size)])
        return found

    def variables(self, place: Place) -> List[str]:
        """The variables of a place, in the order of its constructor."""
        named = [it for piece in self.waiting(place) for it in piece]
        waits = {"on": named if place.pieces is not None else ["pieces"], "off": [], "any": ["on", "pieces"]}[self.protection(place)]
        depth: List[str] = [] if self.is_known(place) else ["dt", "lb"]
        return [self.fixed[0], *self.names(place), *self.lost(place), *waits, "dyn", *depth, "c", "z"]

    def lost(self, place: Place) -> List[str]:
        """The names of bytes that were compared and are no longer on the stack."""
        return list(dict.fromkeys(it for fact in self.facts(place) for it in fact.of if it.startswith("u")))

    def binders(self, place: Place) -> str:
        """Those variables with their types."""
        types = {self.fixed[0]: self.fixed[1], "dyn": "List ℕ", "pieces": "List (ℕ × List ℕ)", "on": "Bool", "c": "Bool", "z": "Bool"}
        groups: List[Tuple[List[str], str]] = []
        for name in self.variables(place):
            kind = types.get(name, "ℕ")
            if groups and groups[-1][1] == kind:
                groups[-1][0].append(name)
            else:
                groups.append(([name], kind))
        return " ".join(f"({' '.join(them)} : {kind})" for them, kind in groups)

    def registers(self, place: Place) -> Tuple[str, str]:
        """DT and LB at a place."""
        floor = DYNAMIC + self.section.session
        return (f"0x{floor + (place.height or 0):04X}", f"0x{floor + place.base:04X}") if self.is_known(place) else ("dt", "lb")

    def frame(self, place: Place) -> str:
        """The frame at a place."""
        dyn = "".join(f"{it} ∷ " for it in self.stack(place)) + "dyn"
        dyn = f"({dyn})" if self.stack(place) else dyn
        them = list(zip(place.pieces or (), self.waiting(place)))
        pieces = "(" + "".join(f"({at}, {' ∷ '.join(names)} ∷ []) ∷ " for (at, _), names in them) + "[])" if them else "[]"
        on, waits = {"on": ("true", pieces if place.pieces is not None else "pieces"), "off": ("false", "[]"), "any": ("on", "pieces")}[self.protection(place)]
        return f"(frame_at {place.ins.at} {on} {waits} {self.fixed[0]} {dyn} {' '.join(self.registers(place))} c z)"

    # -- parts of the file

    def effect(self, place: Place) -> str:
        """What an instruction does to static bytes, in words."""
        if place.ins.is_primitive and place.ins.pair == PROTECTION and not always_abends(place.ins):
            return {0: "drops what waits", 1: "COMMITS", 2: "", 3: "COMMITS"}[place.ins.rest[1]]
        if not static_write(place.ins, self.section):
            return ""
        sure = place.ins.op in WRITES and place.ins.tag in (SB, ST)
        words = {"off": ("WRITES STATIC BYTES", "may WRITE STATIC BYTES"), "on": ("waits", "may wait"),
                 "any": ("WRITES or waits", "may WRITE or wait")}
        return words[self.protection(place)][0 if sure else 1]

    def comment(self, place: Place) -> str:
        """The comment above a place: its number, its instruction, where it leads, and what is special there."""
        what = "the head of a loop" if place.is_loop else "a join" if place.is_join else "by a call"
        came = sorted({it[0] for it in place.before})
        mark = f"from {', '.join(map(str, came))}: {what}" if place.is_join or place.is_loop or place.is_called else ""
        calls = "in the call that returns to " + ", in that to ".join(str(call.back) for call in reversed(place.calls)) if place.calls else ""
        leading = leads(place.ins) if not (is_return(place.ins) and place.calls) else f"returns to {place.calls[-1].back}"
        return f"  -- {place.ins.at} {place.ins.text}: " + "; ".join(it for it in (leading, self.effect(place), mark, calls) if it)

    def predicate(self, place: Place) -> str:
        """What is known at a place, for the writer to fill in."""
        return f"Known{self.places[place.head].name} e h p {self.fixed[0]}"

    def about(self, place: Place) -> str:
        """What is known of the stack at a place with a predicate."""
        floor = DYNAMIC + self.section.session
        what = "the head of a loop" if place.is_loop else "a join" if place.is_join else "after a change" if place.is_changed else "the first place"
        depth, base = self.registers(place)
        known = f"DT is {depth}, LB {base}, the floor 0x{floor:04X}" if self.is_known(place) else "DT and LB are not known"
        return f"-- {place.name}, {what}: {known}"

    # -- what comparisons decide

    def span(self, place: Place, size: int) -> Optional[Tuple[int, int]]:
        """The dynamic bytes that a row takes as its operand, from the first session byte on, or None if that is not known."""
        ins, floor = place.ins, self.section.session
        if ins.tag in (LB, DT, 0) and not self.is_known(place):
            return None
        low = {DB: 0, LB: floor + place.base, DT: floor + (place.height or 0)}.get(ins.tag)
        if ins.tag == 0:
            start = floor + (place.height or 0) - (2 * size if ins.op in PAIRS else size)
        elif low is None:
            return None
        else:
            start = low + ins.signed(len(ins.rest) - 2)
        return (start, start + size) if start >= 0 else None

    def is_seen(self, place: Place, span: Optional[Tuple[int, int]]) -> bool:
        """Whether dynamic bytes have names."""
        return span is not None and span[1] <= len(self.stack(place))

    def compared(self, place: Place) -> Optional[Tuple[str, str]]:
        """The two operands of a comparison as terms, the second one empty if there is none; None if they have no terms."""
        ins = place.ins
        if ins.op not in COMPARES or always_abends(ins):
            return None
        size = COMPARES[ins.op] or ins.length
        dynamic, fixed = self.span(place, size), static_span(ins, self.section)
        low = ins.signed(len(ins.rest) - 2) + (PUBLIC_END - PUBLIC if ins.tag == PT else 0) if ins.tag else 0
        if dynamic is not None and self.is_seen(place, dynamic):
            first = "(" + "".join(f"{it} ∷ " for it in self.stack(place)[dynamic[0]:dynamic[1]]) + "[])"
        elif fixed is not None and self.cells and place.pieces == ():
            first = "(" + "".join(f"v.{it} ∷ " for it in self.cells[fixed[0]:fixed[1]]) + "[])"
        elif ins.tag in (PB, PT) and 0 <= low and low + size <= PUBLIC_END - PUBLIC:
            first = f"(take {size} (drop {low} p))" if low else f"(take {size} p)"
        else:
            return None
        if ins.op == TESTN:
            return first, ""
        if ins.op in PAIRS:
            second = self.stack(place)[-size:] if self.is_whole(place) else []
        else:
            second = [f"0x{it:02X}" for it in ins.rest[:size]]
        return (first, "(" + "".join(f"{it} ∷ " for it in second) + "[])") if len(second) == size else None

    def operands(self, place: Place) -> Tuple[str, ...]:
        """The variables of a comparison."""
        words = re.findall(r"[a-z]\w*", " ".join(self.compared(place) or ()))
        return tuple(it for it in (self.fixed[0], *self.names(place), "p") if it in words)

    def looked_at(self, place: Place) -> str:
        """The flags that the next conditional instruction looks at, before another sets them."""
        while not place.is_head:
            ins = place.ins
            if ins.op in (1, 2, 3) and ins.tag in LOOKS_AT:
                return LOOKS_AT[ins.tag]
            found = self.shape.on_from(place)
            if self.sets_flags(ins) or len(found) != 1:
                return ""
            place = self.places[found[0][0]]
        return ""

    def sets_flags(self, ins: Ins) -> bool:
        return ins.op in SETS_FLAGS or ins.is_primitive and ins.pair in FLAG_PRIMITIVES

    def facts(self, place: Place) -> List[Fact]:
        """What comparisons on the way from its head decided, as long as what they compared is what it was."""
        if place.is_head:
            return []
        if place.spot in self.known_facts:
            return self.known_facts[place.spot]
        before = self.places[place.before[0]]
        found = [way for to, _, way in self.shape.on_from(before) if to == place.spot]
        flags = [it for way in found for it in way.flags]
        facts: List[Fact] = []
        for fact in self.facts(before):
            if fact.value in ("c", "z"):
                values = {pair[0 if fact.value == "c" else 1] for pair in flags}
                value = next(iter(values)) if len(values) == 1 else "c"
                is_kept = value in ("true", "false") or not self.sets_flags(before.ins) and fact.flag in self.looked_at(place)
                fact = Fact(fact.at, fact.flag, value if value in ("true", "false") else fact.value, fact.of, fact.is_whole)
                if not is_kept:
                    continue
            lost = [it for it in fact.of if not self.are_same(before, place, (it,))]
            if lost and fact.value in ("c", "z") and not {self.fixed[0], "p"} & set(lost):
                first = len(fact.of) - len([it for it in fact.of if it not in (self.fixed[0], "p")])
                of = tuple(f"u{fact.at}_{n - first}" if it in lost else it for n, it in enumerate(fact.of))
                fact, lost = Fact(fact.at, fact.flag, fact.value, of, fact.is_whole), []
            if not lost:
                facts.append(fact)
        if self.compared(before) is not None and self.are_same(before, place, self.operands(before)):
            is_whole = before.ins.op == TESTN
            facts += [Fact(before.name, it, it, self.operands(before), is_whole) for it in self.looked_at(place) if it == "z" or not is_whole]
        self.known_facts[place.spot] = facts
        return facts

    def are_same(self, place: Place, target: Place, names: Tuple[str, ...]) -> bool:
        """Whether variables are at the next place what they are at this one."""
        kept = {self.fixed[0], "p", *self.same_names(place, target), *(it for it in names if it.startswith("u"))}
        kept -= {self.fixed[0]} if self.changes(place) else set()
        kept -= {"p"} if public_write(place.ins, self.section) or place.ins.is_primitive and place.ins.pair == DELEGATION else set()
        return set(names) <= kept

    def same_names(self, place: Place, target: Place) -> List[str]:
        """The names of session and stack that an instruction leaves as they are."""
        ins, here, there = place.ins, self.stack(place), self.stack(target)
        end = min(len(here), len(there))
        taken = range(0)
        if is_return(ins) and place.calls:
            end = min(end, self.section.session + place.base - 4 - return_counts(ins)[0])
        if ins.op in WRITES and ins.tag not in (SB, ST, PB, PT):
            span = self.span(place, WRITES[ins.op] or ins.length)
            taken = range(*span) if span is not None else range(len(here))
        elif ins.op == STOREI or ins.is_primitive and ins.pair not in ((0, 1), (0, 2), (0, 3), PROTECTION):
            taken = range(len(here))
        return [there[n] for n in range(end) if n not in taken and there[n] == here[n]]

    # -- the answers

    def is_exit(self, ins: Ins) -> bool:
        """Whether an instruction ends its frame."""
        return ins.op == 0 and ins.tag >= 4

    def changes(self, place: Place) -> bool:
        """Whether static bytes may be others after an instruction."""
        return changes_static(place, self.section)

    def cells_after(self, place: Place) -> str:
        """The static bytes after an instruction: those that it writes, where it says which, are for the check to find."""
        if not self.changes(place):
            return self.fixed[0]
        ins = place.ins
        spans: List[Tuple[int, int]] = []
        if ins.is_primitive and place.pieces is not None and ins.pair == PROTECTION:
            spans = [(at, at + size) for at, size in place.pieces]
        elif ins.op in WRITES and place.protections == {False}:
            span = static_span(ins, self.section)
            spans = [span] if span is not None else []
        written = [name for n, name in enumerate(self.cells) if any(low <= n < high for low, high in spans)]
        return f"(record {self.fixed[0]} {{ {'; '.join(f'{it} = _' for it in written)} }})" if written else "?"

    def is_stuck(self, place: Place) -> bool:
        """Whether the row at a place does not compute: with a stack of unknown depth, with more static bytes than have names, with an address
        from the stack, or with static bytes over which others wait that are not known."""
        ins = place.ins
        if not self.is_known(place) or not self.cells and self.section.static > 0:
            return True
        if ins.op in (LOADI, STOREI, INDEX) or ins.is_primitive and ins.pair in PRIMITIVES and PRIMITIVES[ins.pair][0] > 0:
            return True
        if (is_return(ins) or ins.op == 3) and not (self.shape.is_clear and self.is_whole(place)):
            return True
        is_static = LOAD <= ins.op <= 0x1F and ins.tag in (SB, ST) or ins.is_primitive and ins.pair == PROTECTION and ins.rest[1] in (1, 3)
        return place.pieces is None and is_static or not self.are_written_seen(place)

    def are_written_seen(self, place: Place) -> bool:
        """Whether the check sees, byte by byte, what an instruction writes to an address, where that depends on other bytes."""
        ins = place.ins
        if ins.op not in WRITES:
            return True
        size = WRITES[ins.op] or ins.length
        if ins.op in FROM_STACK and not (self.is_whole(place) and size <= (place.height or 0)) and ins.tag not in (PB, PT):
            return False
        if ins.tag in (SB, ST) or ins.op == STORE and ins.tag in (PB, PT):
            return True
        if ins.tag in (PB, PT):
            return ins.op in CONSTANT
        span = self.span(place, size)
        saved = [range(self.section.session + call.base - 4, self.section.session + call.base) for call in place.calls]
        return span is not None and self.is_seen(place, span) and not any(n in it for it in saved for n in range(*span))

    def taken_apart(self, place: Place) -> int:
        """The number of public bytes from the first on that have to be seen for what an instruction pushes; 0 if there are none."""
        ins = place.ins
        if ins.op != LOAD or ins.tag != PB or always_abends(ins) or not self.is_known(place):
            return 0
        end = ins.signed(len(ins.rest) - 2) + ins.length
        return end if ins.signed(len(ins.rest) - 2) >= 0 and end <= 8 else 0

    def are_pushed_seen(self, place: Place) -> bool:
        """Whether the check finds each byte that an instruction pushes."""
        ins = place.ins
        if ins.op in (3, 4, LOADA) or ins.is_primitive and ins.pair == (0, 2):
            return True
        if ins.op != LOAD:
            return (moved(ins, 0) or 0) <= 0
        size = ins.length
        is_static = ins.tag in (SB, ST) and bool(self.cells) and static_span(ins, self.section) is not None
        return is_static or self.is_seen(place, self.span(place, size)) or self.taken_apart(place) > 0

    def is_found(self, place: Place, target: Place) -> bool:
        """Whether the check finds the stack at the next place in that of a place."""
        if is_return(place.ins):
            return self.is_whole(place)
        if len(self.stack(target)) <= self.section.session:
            return True
        if place.height is None or target.height is None:
            return False
        change = target.height - place.height
        if change > 0 and not self.are_pushed_seen(place):
            return False
        return len(self.stack(target)) <= len(self.stack(place)) + change

    def is_cut_off(self, place: Place) -> bool:
        """Whether an instruction always abends there, by its own bytes or with so low a stack."""
        return always_abends(place.ins) or place.height is not None and place.height < need(place.ins)

    def step(self, place: Place, to: Spot, way: Way, flags: Tuple[str, str]) -> str:
        """The answer for one way on from a place."""
        target, ins = self.places[to], place.ins
        sets = self.sets_flags(ins)
        same = self.same_names(place, target)
        is_same = self.stack(target) == self.stack(place) and not stack_write(ins, self.section, DYNAMIC) and not ins.op == 3
        values = {"c": "_" if sets else flags[0], "z": "_" if sets else flags[1], self.fixed[0]: self.cells_after(place), "dyn": "dyn" if is_same else "_"}
        values.update({name: name for name in same})
        for fact in self.facts(target):
            was = next((it for it in self.facts(place) if it.name == fact.name), fact)
            values.update({name: old for name, old in zip(fact.of, was.of) if name.startswith("u")})
        words = [values.get(name, "_") for name in self.variables(target)]
        is_kept = target.head == place.head and not self.changes(place) and not way.is_delegated and not public_write(ins, self.section)
        known = "known" if is_kept else "?"
        if not self.is_found(place, target):
            return "?"
        had = {fact.name: fact for fact in self.facts(place)}
        proofs = [fact.name if fact.name in had else "refl" for fact in self.facts(target)]
        at = " ".join([f"at{target.name}", *words, known, *proofs])
        return f"λ q big. {at}" if way.is_delegated else at

    def turns(self) -> Iterator[str]:
        """The lines of the turns: a line for each place and for each way on from it."""
        for place in self.places.values():
            names = self.variables(place)[:-2]
            keeps = "?" if self.changes(place) else "kept"
            found = [(flags, self.step(place, to, way, flags)) for to, _, way in self.shape.on_from(place) for flags in way.flags]
            if not self.shape.is_clear and any(way.is_call for _, _, way in self.shape.on_from(place)):
                found = []
            for flags, after in found or [(("c", "z"), "exited e _ _ _" if self.is_exit(place.ins) else "?")]:
                answer = "tt" if self.is_cut_off(place) else "?" if self.is_stuck(place) else f"record {{ keeps = {keeps}; next = {after} }}"
                facts = [fact.name for fact in self.facts(place)]
                place_is = f"depth x ({' '.join([f'at{place.name}', *names, *flags, 'known', *facts])}) kept fits size"
                seen = self.taken_apart(place) if answer.startswith("record") else 0
                seen_names = [f"p{n}" for n in range(seen)]
                for size in range(seen):
                    yield f"turn_at e h f {listed(seen_names, size)} {place_is} = absurd (omega (arith, size))"
                public = f"({' ∷ '.join([*seen_names, 'ps'])})" if seen else "p"
                yield f"turn_at e h f {public} {place_is} = {answer}"

    def comparisons(self) -> Iterator[str]:
        """The definitions of what comparisons find, of those that some place has a fact of."""
        used = {fact.at for place in self.places.values() for fact in self.facts(place)}
        for place in self.places.values():
            terms = self.compared(place)
            if place.name not in used or terms is None:
                continue
            kinds = {"v": "Cells", "fixed": "List ℕ", "p": "List ℕ"}
            of = self.operands(place)
            kind = "".join(f"({it} : {kinds.get(it, 'ℕ')}) → " for it in of)
            is_test = place.ins.op == TESTN
            yield f"-- {place.ins.at} {place.ins.text}"
            yield f"abbrev pub found{place.name} : {kind}{'Bool' if is_test else 'Worked'}"
            yield f"{' '.join((f'found{place.name}', *of))} = " + (f"is_zero {terms[0]}" if is_test else f"sub_blocks {terms[0]} {terms[1]}")
            yield ""

    def firsts(self) -> Iterator[str]:
        """How a frame begins: the static bytes taken apart, and place 0; and how a command does, with the session bytes taken apart."""
        names = [f"s{n}" for n in range(self.section.session)]
        binders = "".join(f" ({it} : ℕ)" for it in names)
        session = "(" + "".join(f"{it} ∷ " for it in names) + "[])" if names else "[]"
        given = "".join(f" {it}" for it in names)
        yield f"first_place : (e : Entry Event) (h : List Event) (p fixed : List ℕ){binders} → IsFresh e h p → {self.title}Kept h fixed"
        yield f"    → {self.title}At e h p (first_frame_of {self.word}_outline fixed {session})"
        fill = given + " _" * (len(self.variables(self.places[(0, ())])) - 1 - len(names)) + " fresh"
        if not self.cells:
            yield f"first_place e h p fixed{given} fresh kept = at0 fixed{fill}"
        for size in range(len(self.cells) + 2 if self.cells else 0):
            cells = "; ".join(f"{it} = {it}" for it in self.cells)
            answer = f"at0 (record {{ {cells} }}){fill}" if size == len(self.cells) else "absurd (omega (arith, kept.size))"
            yield f"first_place e h p {listed(self.cells, size)}{given} fresh kept = {answer}"
        yield ""
        yield f"begun : (bytes : List ℕ) (a : ApduParts) (h k : List Event) (fixed session : List ℕ) → IsFresh (BySelection bytes a h) k (new_public a) → {self.title}Kept k fixed"
        yield f"    → length session ≡ {len(names)} → {self.title}At (BySelection bytes a h) k (new_public a) (first_frame_of {self.word}_outline fixed session)"
        for size in range(len(names) + 2):
            answer = f"first_place (BySelection bytes a h) k (new_public a) fixed{given} fresh kept" if size == len(names) else "absurd (omega (arith, size))"
            yield f"begun bytes a h k fixed {listed(names, size)} fresh kept size = {answer}"


def listed(names: List[str], size: int) -> str:
    """A pattern of a list with the first names, as many as `size`; of more than there are, if `size` is greater."""
    if size > len(names):
        return "(" + " ∷ ".join([*names, "more", "rest"]) + ")"
    return "(" + " ∷ ".join([*names[:size], "[]"]) + ")" if size else "[]"


def code_lines(code: bytes) -> List[str]:
    """A list of bytes, in lines of 22."""
    words = [f"0x{it:02X}" for it in code] + ["[]"]
    rows = [" ∷ ".join(words[at:at + 22]) for at in range(0, len(words), 22)]
    return [f"    {'∷ ' if n else ''}{row}" for n, row in enumerate(rows)]


def skeleton(it: Writer) -> Iterator[str]:
    """The lines of a skeleton."""
    section, places = it.section, it.places
    heads = [place.name for place in places.values() if place.is_head]
    loops = [place.name for place in places.values() if place.is_loop]
    writes = [place.name for place in places.values() if it.changes(place)]
    word, title, (var, kind) = it.word, it.title, it.fixed
    yield f"-- The outline of `{section.name}`, begun by tools/mel/outline.py: {it.size} bytes of code, {section.static} static, {section.session} session."
    yield f"-- {len(places)} places. A predicate is wanted at {', '.join(heads)}" + (f"; heads of loops: {', '.join(loops)}" if loops else "") + "."
    yield f"-- Static bytes may change at {', '.join(writes) or 'no place'}: there `keeps` is a goal. Each `?` is yours."
    yield from IMPORTS
    yield "-- of your own crate"
    yield f"use Rattle.{it.crate}.specs.{title}.{{Event, {word}_name, {word}_code, {word}_app, {word}_watch}}"
    yield ""
    yield "-- ---- what keeps and what holds"
    yield ""
    yield "-- of the history and the static bytes, whenever power may go: add what you promise"
    yield f"pub record {title}Kept (h : List Event) (fixed : List ℕ) : Type 0 where"
    yield f"  pub size : length fixed ≡ {section.static}"
    yield ""
    yield "-- besides, of the session bytes, between two commands of a session: yours"
    yield f"abbrev pub {title}Holds : List Event → List ℕ → List ℕ → Type 0"
    yield f"{title}Holds h fixed session = ⊤"
    yield ""
    yield "-- ---- frames"
    yield ""
    if it.cells:
        yield "-- the static bytes"
        yield "pub record Cells : Type 0 where"
        yield from (f"  pub {name} : ℕ" for name in it.cells)
        yield ""
        yield "abbrev pub fixed_of : Cells → List ℕ"
        yield "fixed_of v = " + "".join(f"v.{name} ∷ " for name in it.cells) + "[]"
        yield ""
    yield f"-- a frame of `{section.name}` at a place"
    yield f"abbrev pub frame_at : ℕ → Bool → List (ℕ × List ℕ) → {kind} → List ℕ → ℕ → ℕ → Bool → Bool → Frame"
    yield f"frame_at place on pieces {var} dyn dt lb c z ="
    yield "    record {"
    yield from (f"      {line};" for line in (
        f"name = {word}_name", f"code_len = {it.size}", f"session = {section.session}", "deny = 0",
        f"fixed = {'fixed_of v' if it.cells else 'fixed'}", "pieces = pieces",
        "dyn = dyn", "dt = dt", "lb = lb", "at = place", "c = c", "z = z", "protected = on"))
    yield "    }"
    yield ""
    yield "-- ---- what is known, from each head on: yours, but for place 0"
    yield ""
    yield "-- nothing was counted yet but the command, and the public segment is the command's, if the selection began the frame"
    yield "abbrev pub IsFresh : Entry Event → List Event → List ℕ → Type 0"
    yield f"IsFresh (BySelection bytes a before) h p = (h ≡ with_event ({word}_watch.of_command bytes a) before) × (p ≡ new_public a)"
    yield "IsFresh ByDelegation h p = ⊤"
    yield ""
    for place in places.values():
        if place.is_head:
            yield it.about(place)
            yield f"abbrev pub Known{place.name} : Entry Event → List Event → List ℕ → {kind} → Type 0"
            yield f"Known{place.name} e h p {var} = " + ("IsFresh e h p" if place.name == "0" and not place.before else "⊤")
            yield ""
    compared = list(it.comparisons())
    if compared:
        yield "-- ---- what comparisons find: the flags after each, as long as what was compared does not change"
        yield ""
        yield from compared
    yield "-- ---- places"
    yield ""
    yield "-- before the instruction at each place"
    yield f"pub data {title}At (e : Entry Event) (h : List Event) (p : List ℕ) : Frame → Type 0 where"
    for place in places.values():
        yield it.comment(place)
        known = " → ".join([it.predicate(place), *(fact.text for fact in it.facts(place))])
        yield f"  at{place.name} : {it.binders(place)} → {known} → {title}At e h p {it.frame(place)}"
    yield ""
    yield "-- the outline"
    yield f"abbrev pub {word}_outline : Outline Event"
    yield f"{word}_outline ="
    yield "    record {"
    yield from (f"      {line};" for line in (f"watch = {word}_watch", f"app = {word}_app", f"keeps = {title}Kept", f"holds = {title}Holds",
                                              f"at = λ e h f p. {title}At e h p f", "answers = λ a before after sw. ⊤"))
    yield "    }"
    yield ""
    yield "-- ---- each instruction leads to what it has to"
    yield ""
    yield "-- an exit of a command leads to what holds and to what is answered, that of a delegated frame to nothing"
    yield f"exited : (e : Entry Event) (h : List Event) (f : Frame) (d : Done) → ExitShown {word}_outline e h f d"
    yield "exited ByDelegation h f d = tt"
    yield "exited (BySelection bytes a before) h f d = (tt, tt)"
    yield ""
    yield "turn_at : (e : Entry Event) (h : List Event) (f : Frame) (p : List ℕ) (depth : ℕ) (x : Around)"
    yield f"    → {title}At e h p f → {title}Kept h f.fixed → FitsEntry e x → public_size ≤ length p"
    yield f"    → FetchShown {word}_outline e h f p depth x (instruction_at {word}_code f.at)"
    yield "unfolding row causes effect bytes_at write_effect too_many later_causes prim_effect touched_words"
    yield from it.turns()
    yield ""
    if section.session <= 8:
        yield "-- ---- beginnings"
        yield ""
        yield from it.firsts()
        yield ""
    is_few = section.session <= 8
    yield "-- ---- what is shown"
    yield ""
    yield f"pub {word}_shown : IsShown {word}_outline"
    yield f"{word}_shown ="
    yield "    record {"
    yield "      -- the bytes of a new application, and an empty history"
    yield "      created = record { size = refl };"
    yield "      -- a new selection: what keeps, and what holds of zero session bytes"
    yield "      selected = λ was h fixed kept. (record { size = kept.size }, tt);"
    yield "      -- the end of a session"
    yield "      ended = λ was h fixed kept. record { size = kept.size };"
    yield "      -- a command: what keeps, with its event, and place 0; the public segment is the command's"
    yield "      begins = λ bytes a h fixed session kept holds size. ("
    yield "        record { size = kept.size },"
    yield f"        {'begun bytes a h _ fixed session (refl, refl) (record { size = kept.size }) size' if is_few else '?'},"
    yield "      );"
    yield "      -- place 0, of a delegation: session bytes are zeros, the public segment is any"
    yield f"      entered = λ h fixed public kept size. {'first_place ByDelegation h public fixed' + ' 0' * section.session + ' tt kept' if is_few else '?'};"
    yield "      -- the instructions"
    yield "      turn = λ e h f public depth x at kept fits size. turn_at e h f public depth x at kept fits size;"
    yield "      -- an abend at any place, after which the session goes on"
    yield "      abends = λ bytes a before h f public at kept. tt;"
    yield "      -- the events of abends and of answers, if you count them"
    yield "      failed = λ at cause h fixed. record { keeps = λ kept. kept; holds = λ session kept holds. holds };"
    yield "      answered = λ bytes outcome h fixed. record { keeps = λ kept. kept; holds = λ session kept holds. holds };"
    yield "    }"


# ---- a crate


def byte_list(them: bytes) -> str:
    """A list of bytes in one line."""
    return " ∷ ".join([*(f"0x{it:02X}" for it in them), "[]"])


def text_lines(lines: List[str]) -> List[str]:
    """An assembly text as a definition has it, in lines of some 100 characters."""
    rows: List[str] = []
    for line in lines:
        quoted = line.replace("\\", "\\\\").replace('"', '\\"').replace("\t", "\\t") + "\\n"
        if rows and len(rows[-1]) + len(quoted) <= 100:
            rows[-1] += quoted
        else:
            rows.append(quoted)
    return [f"    {'++ ' if n else ''}codes \"{row}\"" for n, row in enumerate(rows or [""])]


def definitions(it: Writer) -> Iterator[str]:
    """The lines of the definitions of an application: its name, its text, its code, what it is at its creation, and what is counted of it."""
    section, word = it.section, it.word
    rest = section.static - len(section.data)
    yield f"-- `{section.name}`, begun by tools/mel/outline.py: its text and its code, what it is on a card, and what is counted of it."
    yield "use Rattle.std.specs.Prelude.{ℕ, List, [], ◌∷◌, ◌++◌, codes, Option, Some, None}"
    if rest > 16:
        yield "use Rattle.model_device.specs.Bytes.{zeros}"
    yield "use Rattle.model_device.specs.Card.{App}"
    yield "use Rattle.law_promise.specs.History.{Deed, Watch}"
    yield ""
    yield "-- its name"
    yield f"abbrev pub {word}_name : List ℕ"
    yield f"{word}_name = {byte_list(section.aid)}"
    yield ""
    yield "-- its text"
    yield f"abbrev pub {word}_text : List ℕ"
    yield f"{word}_text ="
    yield from text_lines(section.text)
    yield ""
    yield "-- the code that the text is assembled to"
    yield f"abbrev pub {word}_code : List ℕ"
    yield f"{word}_code ="
    yield from code_lines(it.code)
    yield ""
    fixed = byte_list(section.data) + f" ++ zeros {rest}" if rest > 16 else byte_list(section.data + bytes(max(rest, 0)))
    yield "-- the application as it is created"
    yield f"abbrev pub {word}_app : App"
    yield f"{word}_app = record {{ code = {word}_code; fixed = {fixed}; session = {section.session}; deny = 0; dir = []; fci = []; place = 0 }}"
    yield ""
    yield "-- what is counted, yours: each write of static bytes, with the bytes that it leaves"
    yield "pub data Event : Type 0 where"
    yield "  Wrote : (fixed : List ℕ) → Event"
    yield ""
    yield "abbrev pub write_event : Option (List (ℕ × List ℕ)) → List ℕ → Option Event"
    yield "write_event None fixed = None"
    yield "write_event (Some pieces) fixed = Some (Wrote fixed)"
    yield ""
    yield "-- the event of an instruction that was done"
    yield "abbrev pub event_of : Deed → Option Event"
    yield "event_of d = write_event d.effect.changes d.effect.frame.fixed"
    yield ""
    yield "-- the watch: with events of abends, commands, answers, selections and ends of sessions, if you count them"
    yield f"abbrev pub {word}_watch : Watch Event"
    yield f"{word}_watch ="
    yield "    record {"
    yield from (f"      {line};" for line in (f"name = {word}_name", "of_deed = event_of", "of_abend = λ at cause. None", "of_command = λ bytes a. None",
                                              "of_answer = λ bytes outcome. None", "of_selection = λ was. None", "of_end = λ was. None"))
    yield "    }"


def library(it: Writer) -> Iterator[str]:
    """The lines of the crate's root."""
    yield "#![tactic(auto)]"
    yield ""
    yield f"//! What `{it.section.name}` promises in every play."
    yield ""
    yield "ghost use Rattle.std.specs.Prelude.{◌≡◌, Ok};"
    yield "ghost use Rattle.model_text.specs.Assembly.{assembly_of};"
    yield f"ghost use Rattle.{it.crate}.specs.{it.title}.{{{it.word}_code, {it.word}_text}};"
    yield ""
    yield f"/// The text of `{it.section.name}` is assembled to its code."
    yield "#[tactic(auto, unfolding(model_text::specs::Assembly::assembly_of))]"
    yield "pub fn text()"
    yield f"    ensures {{ assembly_of {it.word}_text ≡ Ok {it.word}_code }}"
    yield "{}"


# What a crate like that of the purse stands on.
BELOW = "model_device model_machine model_text model_card model_play law_machine law_family law_promise"


def make_crate(it: Writer, folder: Path) -> None:
    """Makes a crate with the definitions and the skeleton, and prints the line that crates.txt wants.

    # Errors

    NotDone, if a file is there already; then none is written.
    """
    it.crate = folder.name
    files = {
        "src/lib.rt": library(it),
        "specs/Lib.antt": [f"pub mod {it.title}"],
        f"specs/{it.title}.antt": definitions(it),
        "proofs/Lib.antt": [f"pub mod {it.title}Outline"],
        f"proofs/{it.title}Outline.antt": skeleton(it),
    }
    for name in files:
        if (folder / name).exists():
            raise NotDone(f"{folder / name} is there already")
    for name, lines in files.items():
        (folder / name).parent.mkdir(parents=True, exist_ok=True)
        (folder / name).write_text("".join(f"{line}\n" for line in lines), encoding="utf-8")
    print(f"{it.crate}: {BELOW}")


# ---- an outline against its code

CONSTRUCTOR = re.compile(r"\s*at(\d+)(?:from\d+)*\s*:")
FRAME = re.compile(r"\((?:frame_at|waiting_at)\b(.*)\)\s*$")
REMARK = re.compile(r"\s*-- (\d+) (.*?): ")


def differences(it: Writer, outline: str) -> Iterator[str]:
    """What of an outline is not the code's."""
    found: Dict[int, str] = {}
    codes = {at: place.ins.text for (at, _), place in it.places.items()}
    remark: Optional[Tuple[int, str]] = None
    for line in outline.splitlines():
        if match := REMARK.match(line):
            remark = int(match.group(1)), match.group(2)
        elif match := CONSTRUCTOR.match(line):
            at = int(match.group(1))
            found[at] = line
            frame = FRAME.search(line)
            if frame is None or not re.search(rf"(?<![\w]){at}\b", frame.group(1)):
                yield f"at{at} has a frame at another place"
            if remark is not None and at in codes and remark != (at, codes[at]):
                yield f"at {at} the code has {codes[at]}, the outline says {remark[1]}"
            remark = None
    if not found:
        raise NotDone("the file has no places: no line begins with atN :")
    yield from (f"place {at} is not in the outline: {text}" for at, text in codes.items() if at not in found)
    yield from (f"place {at} of the outline is none of the code's, or is not reached" for at in found if at not in codes)
    for name, wanted in (("code_len", it.size), ("session", it.section.session)):
        for value in re.findall(rf"^\s*{name} = (\d+);", outline, re.MULTILINE):
            if int(value) != wanted:
                yield f"{name} is {value} in the outline, and {wanted} in the deck"


def main() -> int:
    words = argparse.ArgumentParser(description="Writes the skeleton of a proof outline of an application of a deck.")
    words.add_argument("deck", metavar="DECK", help="the deck")
    words.add_argument("name", metavar="NAME", help="the name of an app section of it")
    words.add_argument("--into", metavar="FOLDER", help="make a crate there, with the definitions and the skeleton")
    words.add_argument("--check", metavar="FILE", help="compare the places of the outline in this file with the code's")
    given = words.parse_args()
    try:
        section = section_of(lines_of(read(given.deck)), given.name)
        digits = melcard("asm", "".join(f"{line}\n" for line in section.text))
        code = bytes.fromhex(digits)
        if not code:
            raise NotDone(f"the section `app {given.name}` has no code")
        it = Writer(section, code, shape(decoded(code, melcard("list", digits).splitlines()), section))
        if given.into is not None:
            make_crate(it, Path(given.into))
            return 0
        if given.check is None:
            print("\n".join(skeleton(it)))
            return 0
        found = list(differences(it, read(given.check)))
        print("\n".join(found or [f"{len({at for at, _ in it.places})} places, all as in the code"]))
        return 1 if found else 0
    except (NotDone, OSError) as why:
        print(f"outline: {why}", file=sys.stderr)
        return 2


if __name__ == "__main__":
    sys.exit(main())
