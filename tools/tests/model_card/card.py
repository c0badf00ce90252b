"""The card: power, the manager's commands, and who gets a command."""

from __future__ import annotations

from dataclasses import dataclass, field
from typing import Dict, FrozenSet, Optional

from .instructions import parsed, public_of, reply_of, run
from .machine import Abend, Frame, Machine
from .memory import Application, Memory, Stopped, words_of

CODE, DATA, DIR, FCI = 0x24, 0x26, 0x20, 0x22
LIMITS = (8192, 4096, 4096, 256, 128, 128)  # of OPEN's six numbers


class Refused(Exception):
    """The card answers a command with a status alone."""


@dataclass
class Load:
    """An open load: its access list, its sizes, and what came of each section."""

    access: int
    static: int
    session: int
    sizes: Dict[int, int]
    got: Dict[int, bytes] = field(default_factory=lambda: {CODE: b"", DATA: b"", DIR: b"", FCI: b""})

    @property
    def words(self) -> int:
        """The words that the application takes."""
        return 5 + words_of(self.sizes[CODE]) + words_of(self.static) + words_of(self.sizes[DIR]) + words_of(self.sizes[FCI])


def name_of(directory: bytes) -> Optional[bytes]:
    """Returns the name in a DIR record, or None."""
    if len(directory) < 2 or directory[0] != 0x61:
        return None
    content = directory[2:2 + directory[1]]
    while len(content) >= 2:
        tag, size, rest = content[0], content[1], content[2:]
        if len(rest) < size:
            return None
        if tag == 0x4F:
            return rest[:size] if 5 <= size <= 16 else None
        content = rest[size:]
    return None


def refuse(status: str) -> None:
    """Ends a command with a status."""
    raise Refused(status)


class Card:
    """A card, from power-up to power-up."""

    def __init__(self, faults: FrozenSet[str] = frozenset()) -> None:
        self.faults, self.memory, self.budget = faults, Memory(faults), 10_000
        self.runs = self.is_mute = False
        self.selected: Optional[Application] = None
        self.session = bytearray()
        self.load: Optional[Load] = None
        self.kept: Dict[bytes, bytes] = {}
        self.public = bytearray(0x411)
        # The command that a stop hit, with what was selected, and the static bytes before the last command.
        self.stopped: Optional[bytes] = None
        self.commands = 0
        self.before: Dict[bytes, bytes] = {}

    # ---- power

    def power(self) -> None:
        """Powers the card up."""
        self.lose()
        self.memory.begin()
        self.runs = self.is_mute = False
        try:
            self.memory.recover()
            self.runs = True
        except Stopped:
            self.is_mute = self.kind_of_stop() == "fail"
            if "a card goes on after a failed write" in self.faults:
                self.runs, self.is_mute = self.is_mute, False
        self.memory.fuse = None
        if self.runs and self.stopped is not None and "a stopped command is made again" in self.faults:
            self.again(self.stopped)
        self.stopped = None

    def lose(self) -> None:
        """Loses what lives as long as power, but on cards that keep it."""
        if "the last command before a reset is lost" in self.faults:
            for aid, static in self.before.items():
                if aid in self.memory.applications:
                    self.memory.applications[aid].static[:] = static
        if "the selection is kept over a reset" not in self.faults:
            self.kept_session()
            self.selected, self.session = None, bytearray()
        if "an open load is kept over a reset" not in self.faults:
            self.load = None

    def kept_session(self) -> None:
        """Keeps the session bytes of the selected application, for cards that have them again."""
        if self.selected is not None:
            self.kept[self.selected.aid] = bytes(self.session)

    def again(self, command: bytes) -> None:
        """Makes a command whole that a stop hit."""
        self.selected, self.session = self.was_selected, bytearray(self.was_session)
        self.load = self.was_load
        self.answer(command)
        self.selected, self.session, self.load = None, bytearray(), None

    def kind_of_stop(self) -> str:
        """Returns `cut` or `fail`, of the stop that hit."""
        return self.memory.fuse[0] if self.memory.fuse else ""

    # ---- commands

    def transmit(self, command: bytes) -> bytes:
        """Returns the answer to a command; no bytes if there is none."""
        if not self.runs:
            self.memory.fuse = None
            return b""
        self.was_selected, self.was_session, self.was_load = self.selected, bytes(self.session), self.load
        if "failed writes are tried again" in self.faults and self.kind_of_stop() == "fail":
            self.memory.fuse = None
        try:
            return self.answer(command)
        except Stopped:
            self.stopped = command
            kind = self.kind_of_stop()
            self.runs, self.is_mute = False, kind == "fail"
            if self.is_mute and "a card goes on after a failed write" in self.faults:
                self.runs = True
            return b"\x65\x81" if kind == "fail" else b""
        finally:
            self.memory.fuse = None

    def answer(self, command: bytes) -> bytes:
        """Returns the reply to a command of a card that runs."""
        self.memory.begin()
        try:
            return self.routed(command)
        except Refused as why:
            status = str(why)
            if "6986 for 6985" in self.faults and status == "6985":
                status = "6986"
            return bytes.fromhex(status)
        except Abend as why:
            return bytes([0x6F, why.code])

    def routed(self, command: bytes) -> bytes:
        """Gives a command to whom it is for."""
        found = parsed(command)
        if found is None:
            raise Refused("6700")
        case, data, le, p3 = found
        if command[0] == 0xFF:
            raise Refused("6E00")
        if command[:3] == b"\x00\xA4\x04":
            return self.select(command[3], data, le)
        if command[0] == 0xBE:
            self.manage(command[1], int.from_bytes(command[2:4], "big"), data)
            return b"\x90\x00"
        if self.selected is None:
            raise Refused("6985")
        return self.applied(command, case, data, le, p3)

    def applied(self, command: bytes, case: int, data: bytes, le: Optional[int], p3: int) -> bytes:
        """Passes a command to the selected application."""
        assert self.selected is not None
        first = Frame(self.selected)
        first.dynamic[:len(self.session)] = self.session
        public = public_of(command, data, le, p3)
        if "public bytes are kept between commands" in self.faults:
            public[len(data):64] = self.public[len(data):64]
        memory = self.memory
        self.before = {aid: bytes(it.static) for aid, it in memory.applications.items()}
        machine = Machine(memory, first, public, case, self.budget, self.kept)
        self.commands += 1
        try:
            run(machine, memory.applications)
        except Abend:
            if "an abend ends the selection" in self.faults:
                self.selected = None
            if "session bytes are lost at an abend" in self.faults:
                first.dynamic[:len(self.session)] = bytes(len(self.session))
            raise
        finally:
            self.session[:] = first.dynamic[:len(self.session)]
            self.public = public
            if f"command {self.commands} is forgotten" in self.faults:
                for aid, static in self.before.items():
                    memory.applications[aid].static[:] = static
        return reply_of(machine, le)

    def select(self, p2: int, name: bytes, le: Optional[int]) -> bytes:
        """SELECT."""
        found = self.memory.applications.get(name)
        if p2 not in (0, 0x0C):
            raise Refused("6A86")
        if not name:
            raise Refused("6700")
        if found is None:
            if "a failed selection ends the one before" in self.faults:
                self.selected = None
            raise Refused("6A82")
        self.kept_session()
        is_same = self.selected is found
        self.selected, session = found, bytes(found.session)
        if "session bytes are kept over a selection" in self.faults and is_same:
            session = bytes(self.session)
        if "session bytes are kept for the next selection" in self.faults:
            session = self.kept.get(found.aid, session)
        self.session = bytearray(session.ljust(found.session, b"\0"))
        return (found.fci[:le or 0] if p2 == 0 else b"") + b"\x90\x00"

    # ---- the manager

    def manage(self, ins: int, p: int, data: bytes) -> None:
        """A command of the manager."""
        if ins == 0x12:
            self.open(p, data)
        elif ins in (CODE, DATA, DIR, FCI):
            self.piece(ins, p, data)
        elif ins == 0x16:
            self.create(p, data)
        elif ins == 0x18:
            self.delete(p, data)
        else:
            raise Refused("6D00")

    def open(self, access: int, data: bytes) -> None:
        """OPEN."""
        if access & ~0x0F:
            raise Refused("6A86")
        if len(data) != 12:
            raise Refused("6700")
        numbers = [int.from_bytes(data[it:it + 2], "big") for it in range(0, 12, 2)]
        code, static, given, session, directory, fci = numbers
        if code == 0 or given > static or any(it > limit for it, limit in zip(numbers, LIMITS)):
            raise Refused("6A80")
        made = Load(access, static, session, {CODE: code, DATA: given, DIR: directory, FCI: fci})
        most = 32 + ("33 applications" in self.faults)
        if len(self.memory.applications) >= most or self.memory.room(made.words) is None:
            if "a full card answers 9000" in self.faults:
                return
            if "a full card ends the open load" in self.faults:
                self.load = None
            raise Refused("6A84")
        self.load = made

    def piece(self, ins: int, at: int, data: bytes) -> None:
        """A piece of a section."""
        if not data:
            raise Refused("6700")
        if self.load is None or at != len(self.load.got[ins]):
            raise Refused("6985")
        if at + len(data) > self.load.sizes[ins]:
            raise Refused("6A80")
        self.memory.plain((at + len(data) - 1) // 8 - at // 8 + 1)
        # A stop loses the load, so that what is here may be changed in place.
        self.load.got[ins] += data

    def create(self, p: int, data: bytes) -> None:
        """CREATE."""
        if p:
            raise Refused("6A86")
        if data:
            raise Refused("6700")
        its = self.load
        if its is None or any(len(its.got[it]) < size for it, size in its.sizes.items()):
            raise Refused("6985")
        name = name_of(its.got[DIR])
        if name is None:
            raise Refused("6A80")
        if name in self.memory.applications:
            if "a name is given twice" not in self.faults:
                raise Refused("6A89")
            self.memory.delete(name)
        static = bytearray(its.got[DATA].ljust(its.static, b"\0"))
        access = its.access if "access lists are ignored" not in self.faults else 0
        self.memory.create(Application(name, its.got[CODE], static, its.session, access, its.got[FCI], its.words), len(its.got[DATA]))
        self.load = None

    def delete(self, p: int, name: bytes) -> None:
        """DELETE."""
        if p:
            raise Refused("6A86")
        if not name:
            raise Refused("6700")
        found = self.memory.applications.get(name)
        if found is None:
            raise Refused("6A82")
        if found is self.selected and "a selected application is deleted" not in self.faults:
            raise Refused("6985")
        self.memory.delete(name)
        self.load = None
