#!/usr/bin/env python3
"""Divides a deck that is too long into parts, each of which begins with the card that the part before it left.

    tools/mel/split_deck.py [--lines N] DECK FOLDER

A deck has at most 20,000 lines and 1,048,576 bytes, and a recorded session of a day has more (`docs/READER.md`). The parts go to FOLDER as
NAME.1.deck, NAME.2.deck and so on, each of at most N lines (20,000), and each result of a part is the one that the whole deck would have: so
`mellab expect` of all parts is that of the deck. A part begins with the units and sections that were defined, `format`, the budget, `power`, and
the applications as commands of the card's manager, with the static bytes that they had, each at the place in the memory that it had: gaps between
them are made by applications that are deleted again.

A deck is divided after a `power` line that answers `ready`, or before a selection that succeeds, where no load is open and no stop armed: there
session bytes are lost anyway.

It needs Python 3.9 and `melcard`, built by tools/build or by `rt ci`. It ends with 1 if the deck is refused or cannot be divided, with the lines
where it would have to be, and with 2 if it cannot be read. Then no part is written.
"""

import argparse
import re
import subprocess
import sys
from dataclasses import dataclass, field
from pathlib import Path
from typing import Dict, Iterator, List, Optional, Tuple

from card import program_path
from labtexts import fields_of, lines_of
from units import CODE, CREATE, DATA, DELETE, DIR, FCI, OPEN, SECTIONS, BadUnit, Unit, assembled, delete_command, load_commands, named, parted

LINES, BYTES = 20_000, 1_048_576
# The first word of the heap; the words of the smallest and the largest application with a name of 5 bytes and no FCI; its most static bytes,
# in words.
HEAP, SMALLEST, LARGEST, MOST_STATIC = 131, 8, 1543, 512


REFUSAL = re.compile(r"line (\d+) (\w+)$")


class NotDivided(Exception):
    """Why a deck was not divided."""


class RefusedPart(NotDivided):
    """A part that `melcard` refuses: the line of the part, and the cause."""

    def __init__(self, number: int, cause: str) -> None:
        super().__init__(f"line {number} {cause}")
        self.number, self.cause = number, cause


def bytes_of(lines: List[str]) -> bytes:
    """The bytes of lines."""
    return "".join(f"{line}\n" for line in lines).encode("utf-8", "surrogateescape")


@dataclass
class Item:
    """A statement with the comments behind it, a section counting as one: its first line from 0, its fields, and its lines."""

    start: int
    fields: List[str]
    lines: List[str]


@dataclass
class App:
    """An application: its unit, its sizes and its access list, and its first word in the memory."""

    unit: Unit
    static: int
    session: int
    access: int
    place: int = 0

    @property
    def words(self) -> int:
        """How many words of the memory it takes."""
        sizes = (len(self.unit.code), self.static, len(self.unit.directory), len(self.unit.fci))
        return 5 + sum((size + 7) // 8 for size in sizes)

    @property
    def end(self) -> int:
        """The word behind it."""
        return self.place + self.words

    def lines(self, fixed: bytes) -> Iterator[str]:
        """The lines that load it with these static bytes."""
        unit = Unit(self.unit.code, fixed, self.unit.directory, self.unit.fci)
        for command in load_commands(unit, self.static, self.session, self.access):
            yield f"apdu {command.hex().upper()}"
        yield "#> 9000"


def first_gap(apps: List[App], words: int) -> int:
    """The first place at which there is room for so many words."""
    at = HEAP
    for app in sorted(apps, key=lambda it: it.place):
        if app.place - at >= words:
            break
        at = app.end
    return at


def fillers(number: int, words: int) -> Iterator[App]:
    """Applications of so many words together, which are there to be deleted."""
    while words:
        size = words if words <= LARGEST else min(LARGEST, words - SMALLEST)
        static = min(size - SMALLEST, MOST_STATIC)
        directory, _ = named(f"FFFFFF{number:02X}{words % 256:02X}")
        yield App(Unit(bytes((size - static - 7) * 8), b"", directory, b""), static * 8, 0, 0)
        words -= size


def rebuilt(apps: List[App], fixed: Dict[str, bytes]) -> Iterator[str]:
    """The lines that load applications at their places on a blank card. Where a gap follows one, first something of both sizes is loaded. The
    last one of them is deleted first, and the application loaded there: what is before it has no gap yet, so the first gap is its own."""
    ordered = sorted(apps, key=lambda it: it.place)
    made_up: List[Tuple[List[App], Optional[App]]] = []
    gap = ordered[0].place - HEAP if ordered else 0
    if gap:
        made_up.append((list(fillers(0, gap)), None))
        yield from (line for it in made_up[-1][0] for line in it.lines(b""))
    for app, after in zip(ordered, [*ordered[1:], None]):
        if after is not None and after.place > app.end:
            made_up.append((list(fillers(len(made_up) + 1, after.place - app.place)), app))
            yield from (line for it in made_up[-1][0] for line in it.lines(b""))
        else:
            yield from app.lines(fixed[app.unit.aid])
    for them, theirs in reversed(made_up):
        for it in them:
            yield f"apdu {delete_command(it.unit.aid).hex().upper()}"
        if theirs is not None:
            yield from theirs.lines(fixed[theirs.unit.aid])


@dataclass
class State:
    """What is known of a card: its applications by name in the order of their creation, the units, the load that is open with its sections,
    whether a card runs, and the stop and the budget lines that are in force."""

    apps: Dict[str, App] = field(default_factory=dict)
    units: Dict[str, Unit] = field(default_factory=dict)
    definitions: List[str] = field(default_factory=list)
    load: Optional[Tuple[App, Dict[int, bytes]]] = None
    is_open: bool = False
    runs: bool = False
    armed: Optional[str] = None
    budget: Optional[str] = None
    # The name of which a stop left open whether it is there, and the application that it is then.
    doubt: Optional[Tuple[str, App]] = None

    def copy(self) -> "State":
        """The same, whose changes leave this one."""
        return State(dict(self.apps), dict(self.units), list(self.definitions), self.load, self.is_open, self.runs, self.armed, self.budget, self.doubt)


def items_of(lines: List[str]) -> List[Item]:
    """The statements of a deck. Comments before the first one are an item without fields."""
    found: List[Item] = []
    is_section = False
    for place, line in enumerate(lines):
        fields = fields_of(line)
        if is_section:
            is_section = fields != ["end"]
        elif fields and not fields[0].startswith("#"):
            is_section = fields[0] == "app"
            found.append(Item(place, fields, []))
        elif not found:
            found.append(Item(place, [], []))
        found[-1].lines.append(line)
    return found


def results_of(lines: List[str]) -> Dict[int, str]:
    """The results of a play, by the places of their lines from 0.

    # Errors

    RefusedPart, if `melcard` refuses the lines; NotDivided, if it ends otherwise.
    """
    done = subprocess.run([program_path("melcard"), "play"], input=bytes_of(lines), stdout=subprocess.PIPE, check=False)
    transcript = done.stdout.decode(errors="replace").splitlines()
    refused = REFUSAL.match(transcript[0]) if done.returncode == 1 and len(transcript) == 1 else None
    if refused:
        raise RefusedPart(int(refused.group(1)), refused.group(2))
    if done.returncode:
        raise NotDivided(f"melcard ended with {done.returncode}: {' '.join(transcript)}")
    return {int(number) - 1: result for number, _, result in (line.partition(" ") for line in transcript)}


# ---- what a line does to a card


def data_of(command: bytes) -> bytes:
    """The data of a command, in any of its forms."""
    if len(command) > 7 and command[4] == 0:
        return command[7:7 + int.from_bytes(command[5:7], "big")]
    return command[5:5 + command[4]] if len(command) > 5 else b""


def is_select(fields: List[str]) -> bool:
    """Whether a statement is a selection."""
    return fields[0] == "select" or fields[0] == "apdu" and fields[1].upper().startswith("00A404")


def opened(command: bytes) -> Tuple[App, Dict[int, bytes]]:
    """The load that an OPEN begins."""
    _, static, _, session, _, _ = (int.from_bytes(data_of(command)[at:at + 2], "big") for at in range(0, 12, 2))
    return App(Unit(b"", b"", b"", b""), static, session, int.from_bytes(command[2:4], "big")), {CODE: b"", DATA: b"", DIR: b"", FCI: b""}


def made(load: Tuple[App, Dict[int, bytes]]) -> App:
    """The application that a load makes."""
    app, parts = load
    return App(Unit(**{SECTIONS[ins]: part for ins, part in parts.items()}), app.static, app.session, app.access)


class Walk:
    """Lines that change what is known of a card."""

    def __init__(self, state: State) -> None:
        self.state = state

    def step(self, item: Item, result: str) -> None:
        """A statement and its result."""
        state, word = self.state, item.fields[0] if item.fields else ""
        if word in ("app", "unit"):
            self.define(item)
        elif word == "format":
            state.apps = {}
        elif word == "poke":
            raise NotDivided(f"line {item.start + 1} is a poke, and what it makes of the memory is not known")
        elif word == "budget":
            state.budget = item.lines[0]
        elif word in ("cut", "fail"):
            state.armed = item.lines[0]
        elif word in ("power", "load", "select", "delete", "apdu"):
            self.send(item.fields, result)
            is_stopped = result.startswith("off at") or result == "6581" and state.armed is not None and state.armed.split()[0] == "fail"
            state.runs = result.startswith("ready") if word == "power" else state.runs and not is_stopped
            state.armed = None

    def define(self, item: Item) -> None:
        """A unit or a section."""
        fields = item.fields
        end = next((place for place, line in enumerate(item.lines) if fields_of(line) == ["end"]), 0)
        self.state.definitions += item.lines[:end + 1]
        self.state.units[fields[1]] = parted(fields[2]) if fields[0] == "unit" else assembled(fields[2].upper(), item.lines[1:end])

    def send(self, fields: List[str], result: str) -> None:
        """A line to the card."""
        state = self.state
        if fields[0] == "power":
            state.load, state.is_open = None, False
        elif fields[0] == "load":
            unit = state.units[fields[1]]
            self.create(unit.aid, App(unit, int(fields[2]), int(fields[3]), 0), result)
            # A load that was refused may be open still.
            state.load, state.is_open = None, result != "9000"
        elif fields[0] == "delete":
            self.delete(fields[1].upper(), result)
        elif fields[0] == "apdu" and fields[1].upper().startswith("BE"):
            self.manage(bytes.fromhex(fields[1]), result)

    def manage(self, command: bytes, result: str) -> None:
        """A command to the card's manager."""
        state, ins = self.state, command[1] if len(command) > 1 else 0
        if ins == DELETE:
            self.delete(data_of(command).hex().upper(), result)
        elif ins == CREATE and state.load is not None:
            app = made(state.load)
            self.create(app.unit.aid, app, result)
            if result == "9000":
                state.load, state.is_open = None, False
        elif ins == OPEN and result == "9000":
            state.load, state.is_open = opened(command), True
        elif ins in SECTIONS and result == "9000" and state.load is not None:
            app, parts = state.load
            state.load = app, {**parts, ins: parts[ins] + data_of(command)}

    def create(self, aid: str, app: App, result: str) -> None:
        """A creation, which a stop may have left whole or not at all."""
        app.place = first_gap(list(self.state.apps.values()), app.words)
        if result == "9000":
            self.state.apps[aid] = app
        elif (result.startswith("off at") or result == "6581") and aid not in self.state.apps:
            self.state.doubt = aid, app

    def delete(self, aid: str, result: str) -> None:
        """A deletion, which a stop may have left whole or not at all."""
        if result == "9000":
            self.state.apps.pop(aid, None)
            self.state.load, self.state.is_open = None, False
        elif (result.startswith("off at") or result == "6581") and aid in self.state.apps:
            self.state.doubt = aid, self.state.apps[aid]


# ---- the parts


class Part:
    """A part: the lines that it begins with, what is known of the card behind them, and the items from one on."""

    def __init__(self, front: List[str], state: State, items: List[Item]) -> None:
        self.front, self.state, self.items = front, state, items

    def fitting(self, most: int) -> int:
        """How many of the items fit."""
        count, size = len(self.front), len(bytes_of(self.front))
        for place, item in enumerate(self.items):
            count += len(item.lines)
            size += len(bytes_of(item.lines))
            if count > most or size > BYTES:
                return place
        return len(self.items)

    def text(self, count: int) -> List[str]:
        """The part with so many items."""
        return [*self.front, *(line for item in self.items[:count] for line in item.lines)]

    def results(self, count: int) -> List[str]:
        """The results of these items.

        # Errors

        NotDivided, if `melcard` refuses them, with the line of the whole deck.
        """
        try:
            found = results_of(self.text(count))
        except RefusedPart as why:
            raise NotDivided(f"melcard refuses the deck: line {self.items[0].start + why.number - len(self.front)} {why.cause}") from None
        places, at = [], len(self.front)
        for item in self.items[:count]:
            places.append(at)
            at += len(item.lines)
        return [found.get(place, "") for place in places]

    def divided(self, count: int) -> Tuple[int, State]:
        """The last place among so many items at which the deck can be divided, and what is known of the card there."""
        results = self.results(count)
        walk, last = Walk(self.state.copy()), None
        for place, (item, result) in enumerate(zip(self.items, results)):
            if place and item.fields and is_select(item.fields) and result.endswith("9000") and is_calm(walk.state) and walk.state.runs:
                last = place, walk.state.copy()
            walk.step(item, result)
            if item.fields[:1] == ["power"] and result.startswith("ready"):
                self.settle(walk.state, place + 1)
                last = place + 1, walk.state.copy()
        if last is None or last[0] == 0:
            self.see_end(count)
            first, end = self.items[0].start + 1, self.items[count - 1].start + 1 if count else self.items[0].start + 1
            raise NotDivided(f"between lines {first} and {end} there is no power line that answers `ready`, and no selection that succeeds")
        return last

    def see_end(self, count: int) -> None:
        """Sees that the item behind so many is no section without an end.

        # Errors

        NotDivided, with what `melcard` says of it.
        """
        item = self.items[count] if count < len(self.items) else None
        if item is not None and item.fields[:1] == ["app"] and not any(fields_of(line) == ["end"] for line in item.lines):
            raise NotDivided(f"melcard refuses the deck: line {item.start + 1} NoEnd")

    def settle(self, state: State, count: int) -> None:
        """Finds out whether an application is there of which a stop left that open."""
        if state.doubt is None:
            return
        (aid, app), state.doubt = state.doubt, None
        is_there = self.dumps(count, [aid])[aid] is not None
        if is_there:
            state.apps.setdefault(aid, app)
        else:
            state.apps.pop(aid, None)

    def dumps(self, count: int, names: List[str]) -> Dict[str, Optional[bytes]]:
        """The static bytes of applications behind so many items, None of one that is absent."""
        text = self.text(count)
        found = results_of([*text, *(f"dump {name}" for name in names)])
        seen = {name: found[len(text) + place] for place, name in enumerate(names)}
        return {name: bytes.fromhex(word[7:]) if word.startswith("static") else None for name, word in seen.items()}

    def next(self, count: int, state: State, about: str) -> "Part":
        """The part behind so many items."""
        fixed = self.dumps(count, list(state.apps))
        front = [about, *state.definitions, "format", *([state.budget] if state.budget else []), "power", "#> ready 0"]
        front += rebuilt(list(state.apps.values()), {aid: it or b"" for aid, it in fixed.items()})
        after = state.copy()
        after.runs = True
        front[0] = about.format(shift=self.items[count].start - len(front))
        return Part(front, after, self.items[count:])


def is_calm(state: State) -> bool:
    """Whether nothing is left over from a line to the next one, but the card."""
    return state.armed is None and not state.is_open and state.doubt is None


def parts_of(lines: List[str], name: str, most: int) -> Iterator[Tuple[int, List[str]]]:
    """The parts of a deck: the first line of each in the deck, and its lines.

    # Errors

    NotDivided, if `melcard` refuses the deck, or there is no place to divide it.
    """
    part, number = Part([], State(), items_of(lines)), 1
    while part.items:
        count = part.fitting(most)
        first = part.items[0].start + 1
        if count == len(part.items):
            part.results(count)
            yield first, part.text(count)
            return
        if not count:
            part.see_end(count)
            raise NotDivided(f"the card before line {first} takes more than {most} lines")
        count, state = part.divided(count)
        yield first, part.text(count)
        number += 1
        about = f"# Part {number} of {name}, from its line {part.items[count].start + 1} on: line N here is line N + {{shift}} there."
        part = part.next(count, state, about)


def write_parts(parts: List[Tuple[int, List[str]]], folder: Path, stem: str) -> None:
    """Writes the parts to a folder: all, or none if one cannot be written."""
    made: List[Path] = []
    folder.mkdir(parents=True, exist_ok=True)
    try:
        for number, (_, part) in enumerate(parts, 1):
            path = folder / f"{stem}.{number}.deck"
            with open(path, "wb") as file:
                made.append(path)
                file.write(bytes_of(part))
    except OSError:
        for path in made:
            path.unlink()
        raise
    for path, (first, _) in zip(made, parts):
        print(f"{path}: from line {first} on")


def main() -> int:
    words = argparse.ArgumentParser(description="Divides a deck into parts, each of which begins with the card that the part before it left.")
    words.add_argument("deck", metavar="DECK", help="the deck, as a recorded session")
    words.add_argument("folder", metavar="FOLDER", help="where the parts go")
    words.add_argument("--lines", metavar="N", type=int, default=LINES, help="how many lines a part has at the most (20,000)")
    given = words.parse_args()
    if not 1 <= given.lines <= LINES:
        words.error(f"N is 1 to {LINES}")
    source, folder = Path(given.deck), Path(given.folder)
    try:
        parts = list(parts_of(lines_of(source.read_bytes().decode("utf-8", "surrogateescape")), source.name, given.lines))
        write_parts(parts, folder, source.stem)
    except (NotDivided, BadUnit) as why:
        print(f"split_deck: {why}", file=sys.stderr)
        return 1
    except OSError as why:
        print(f"split_deck: {why}", file=sys.stderr)
        return 2
    return 0


if __name__ == "__main__":
    sys.exit(main())
