"""Load units of a deck, and the commands by which a terminal loads them: for tools/mel/conform.py and tools/mel/split_deck.py.

Python 3.9 and its standard library alone; sections are assembled by `melcard`.
"""

import re
import subprocess
from dataclasses import dataclass
from typing import Dict, Iterator, List, Tuple

from card import program_path
from labtexts import fields_of

PIECE = 248
OPEN, CODE, DATA, DIR, FCI, CREATE, DELETE = 0x12, 0x24, 0x26, 0x20, 0x22, 0x16, 0x18
# The four sections of a load, in the order of their commands, and the attributes that have their bytes.
SECTIONS = {CODE: "code", DATA: "data", DIR: "directory", FCI: "fci"}


class BadUnit(Exception):
    """A unit that is none."""


@dataclass
class Unit:
    """What a load brings onto the card."""

    code: bytes
    data: bytes
    directory: bytes
    fci: bytes

    @property
    def aid(self) -> str:
        """The name of the application in hexadecimal: its DIR record is 61 l 4F l AID."""
        return self.directory[4:4 + self.directory[3]].hex().upper() if len(self.directory) > 4 else ""


def statements(lines: List[str]) -> Iterator[Tuple[int, List[str]]]:
    """The statements of a deck, as their numbers and fields; the lines of sections are none."""
    is_section = False
    for number, line in enumerate(lines, 1):
        fields = fields_of(line)
        if is_section:
            is_section = fields != ["end"]
        elif fields and not fields[0].startswith("#"):
            is_section = fields[0] == "app"
            yield number, fields


def section_of(lines: List[str], number: int) -> List[str]:
    """The lines of the section that begins at the line of this number, without that line and its `end`."""
    end = next((place for place in range(number, len(lines)) if fields_of(lines[place]) == ["end"]), len(lines))
    return lines[number:end]


def named(aid: str) -> Tuple[bytes, bytes]:
    """The DIR and the FCI record that a section has of its name."""
    name = bytes.fromhex(aid)
    size = len(name)
    return bytes([0x61, size + 2, 0x4F, size]) + name, bytes([0x6F, size + 2, 0x84, size]) + name


def assembled(aid: str, lines: List[str]) -> Unit:
    """The unit of a section, by its assembly and its DATA lines."""
    is_data = [fields_of(line)[:1] == ["DATA"] for line in lines]
    text = "".join(f"{line}\n" for line, data in zip(lines, is_data) if not data)
    done = subprocess.run([program_path("melcard"), "asm"], input=text.encode(), stdout=subprocess.PIPE, check=False)
    if done.returncode:
        raise BadUnit(f"the section of {aid} is refused: {done.stdout.decode().strip()}")
    data = b"".join(bytes.fromhex(fields_of(line)[1]) for line, is_it in zip(lines, is_data) if is_it)
    return Unit(bytes.fromhex(done.stdout.decode()), data, *named(aid))


def parted(digits: str) -> Unit:
    """A unit of its hexadecimal: eight bytes, and fields that have their lengths in two bytes before them."""
    text, parts, place = bytes.fromhex(digits), [], 8
    for _ in range(4):
        size = int.from_bytes(text[place:place + 2], "big")
        parts.append(text[place + 2:place + 2 + size])
        place += 2 + size
    return Unit(*parts)


def units_of(lines: List[str]) -> Dict[str, Unit]:
    """The units of a deck that melcard takes, by name."""
    found = {}
    for number, fields in statements(lines):
        if fields[0] == "app" and len(fields) == 3:
            found[fields[1]] = assembled(fields[2].upper(), section_of(lines, number))
        elif fields[0] == "unit" and len(fields) == 3:
            found[fields[1]] = parted(fields[2])
    return found


def load_commands(unit: Unit, static: int, session: int, access: int = 0) -> Iterator[bytes]:
    """The commands that a deck's `load` stands for: OPEN, the pieces of each section, CREATE."""
    sizes = (len(unit.code), static, len(unit.data), session, len(unit.directory), len(unit.fci))
    yield bytes([0xBE, OPEN]) + access.to_bytes(2, "big") + b"\x0C" + b"".join(it.to_bytes(2, "big") for it in sizes)
    for ins, name in SECTIONS.items():
        part = getattr(unit, name)
        for place in range(0, len(part), PIECE):
            piece = part[place:place + PIECE]
            yield bytes([0xBE, ins]) + place.to_bytes(2, "big") + bytes([len(piece)]) + piece
    yield bytes([0xBE, CREATE, 0, 0])


def select_command(aid: str) -> bytes:
    """The command of a `select` line, which asks for no data."""
    return bytes.fromhex("00A4040C") + bytes([len(aid) // 2]) + bytes.fromhex(aid)


def delete_command(aid: str) -> bytes:
    """The command of a `delete` line."""
    return bytes([0xBE, DELETE, 0, 0, len(aid) // 2]) + bytes.fromhex(aid)


def names_of(lines: List[str]) -> List[str]:
    """The applications that a deck names in its load, select, delete and dump lines, in the order of their first mention."""
    aids: Dict[str, str] = {}
    found: List[str] = []
    for _, fields in statements(lines):
        if fields[0] == "app" and len(fields) == 3:
            aids[fields[1]] = fields[2].upper()
        elif fields[0] == "unit" and len(fields) == 3:
            name = re.search(r"61..4F(..)", fields[2].upper())
            aids[fields[1]] = fields[2].upper()[name.end():name.end() + 2 * int(name.group(1), 16)] if name else ""
        elif fields[0] == "load" and len(fields) > 1:
            found.append(aids.get(fields[1], ""))
        elif fields[0] in ("select", "delete", "dump") and len(fields) == 2:
            found.append(fields[1].upper())
    return list(dict.fromkeys(it for it in found if it))
