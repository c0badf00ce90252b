"""The machine: chains of frames that run code."""

from __future__ import annotations

from dataclasses import dataclass, field
from typing import Callable, Dict, Optional

from .memory import Application, Memory

STATIC, DYNAMIC, PUBLIC = 0x0000, 0x8000, 0xC000
TOP, END = 0x8200, 0xC411  # the end of the dynamic and of the public bytes
CONDITIONS: Dict[int, Callable[[int, int], bool]] = {
    1: lambda c, z: bool(z), 2: lambda c, z: bool(c), 3: lambda c, z: bool(c or z), 4: lambda c, z: not (c or z), 5: lambda c, z: not c,
    6: lambda c, z: not z, 7: lambda c, z: True}
WAITING = 64  # words under protection, at the most


class Abend(Exception):
    """The chain ends without a reply."""

    def __init__(self, code: int) -> None:
        super().__init__(f"{code:02X}")
        self.code = code


@dataclass
class Frame:
    """An application that runs."""

    app: Application
    dynamic: bytearray = field(default_factory=lambda: bytearray(512))
    dt: int = 0
    lb: int = 0
    pc: int = 0
    c: int = 0
    z: int = 0
    is_protected: bool = False
    pending: Dict[int, int] = field(default_factory=dict)

    def __post_init__(self) -> None:
        self.dt = self.lb = self.floor

    @property
    def floor(self) -> int:
        """The first byte of the stack."""
        return DYNAMIC + self.app.session


class Machine:
    """A chain, from the command to its end."""

    def __init__(self, memory: Memory, first: Frame, public: bytearray, case: int, budget: int, kept: Dict[bytes, bytes]) -> None:
        self.memory, self.faults, self.public, self.case, self.budget = memory, memory.faults, public, case, budget
        self.chain = [first]
        self.count = 0
        # Session bytes of delegated frames, for a card that keeps them.
        self.kept = kept

    @property
    def frame(self) -> Frame:
        """The frame that runs."""
        return self.chain[-1]

    # ---- bytes

    def segment(self, at: int, size: int, dt: int) -> int:
        """Returns the base of the segment that has these bytes whole, or abends."""
        limit = len(self.frame.app.static) + ("one static byte too many" in self.faults)
        for base, end in ((STATIC, limit), (DYNAMIC, dt), (PUBLIC, END)):
            if base <= at and at + size <= end:
                return base
        raise Abend(3)

    def read(self, at: int, size: int, dt: Optional[int] = None) -> bytes:
        """Returns bytes at an address."""
        if size == 0:
            return b""
        base, its = self.segment(at, size, self.frame.dt if dt is None else dt), self.frame
        if base == STATIC:
            seen = {} if "waiting bytes are not read" in self.faults else its.pending
            static = bytes(its.app.static).ljust(at + size, b"\0")
            return bytes(seen.get(i, static[i]) for i in range(at, at + size))
        source = its.dynamic if base == DYNAMIC else self.public
        return bytes(source[at - base:at - base + size])

    def write(self, at: int, content: bytes, dt: Optional[int] = None) -> None:
        """Writes bytes at an address."""
        base, its = self.segment(at, len(content), self.frame.dt if dt is None else dt), self.frame
        if base == STATIC and its.is_protected:
            waiting = {**its.pending, **dict(zip(range(at, at + len(content)), content))}
            if len({it // 8 for it in waiting}) > WAITING + ("65 words may wait" in self.faults) - ("63 words may wait" in self.faults):
                raise Abend(8)
            its.pending = waiting
        elif base == STATIC:
            self.store(its, dict(zip(range(at, at + len(content)), content)))
        elif base == DYNAMIC:
            its.dynamic[at - base:at - base + len(content)] = content
        else:
            self.public[at - base:at - base + len(content)] = content

    def store(self, its: Frame, content: Dict[int, int]) -> None:
        """Makes static bytes durable, in one atomic write."""
        static, before = its.app.static, bytes(its.app.static)
        words = sorted({at // 8 for at in content})
        first = set(words[:(len(words) + 1) // 2])

        def change(chosen: Callable[[int], bool]) -> Callable[[], None]:
            def done() -> None:
                for at, byte in content.items():
                    if chosen(at // 8) and at < len(static):
                        static[at] = byte
            return done

        def back() -> None:
            static[:] = before

        if words:
            self.memory.atomic(len(words), change(lambda it: True), back, change(lambda it: it in first))

    def commit(self, its: Frame) -> None:
        """Makes what waits durable, together."""
        waiting, its.pending = its.pending, {}
        self.store(its, waiting)

    # ---- the stack

    def below(self, size: int, dt: Optional[int] = None) -> int:
        """Returns DT lowered by some bytes, or abends."""
        found = (self.frame.dt if dt is None else dt) - size
        if found < self.frame.floor:
            raise Abend(4)
        return found

    def pop(self, size: int) -> bytes:
        """Takes bytes off the stack."""
        at = self.below(size)
        content = bytes(self.frame.dynamic[at - DYNAMIC:self.frame.dt - DYNAMIC])
        self.frame.dt = at
        return content

    def pop_number(self, size: int) -> int:
        """Takes a number off the stack."""
        return int.from_bytes(self.pop(size), "big")

    def push(self, content: bytes) -> None:
        """Puts bytes on the stack."""
        its = self.frame
        if its.dt + len(content) > TOP:
            raise Abend(5)
        its.dynamic[its.dt - DYNAMIC:its.dt - DYNAMIC + len(content)] = content
        its.dt += len(content)

    # ---- code

    def operand(self, size: int) -> int:
        """Returns the next bytes of the code as a number."""
        its = self.frame
        if its.pc + size > len(its.app.code):
            raise Abend(2)
        its.pc += size
        return int.from_bytes(its.app.code[its.pc - size:its.pc], "big")

    def go(self, at: int) -> None:
        """Goes to a place of the code."""
        if not 0 <= at < len(self.frame.app.code):
            raise Abend(2)
        self.frame.pc = at

    def register(self, tag: int, offset: int) -> int:
        """Returns the address of an operand, or abends."""
        its = self.frame
        base = (0, STATIC, STATIC + len(its.app.static), DYNAMIC, its.lb, its.dt, PUBLIC, END)[tag]
        if not 0 <= base + offset <= 0xFFFF:
            raise Abend(3)
        return base + offset

    def flag(self, z: bool, c: Optional[bool] = None) -> None:
        """Sets Z, and C if it is given."""
        its = self.frame
        its.z, its.c = int(z), its.c if c is None else int(c)


def signed(value: int, size: int) -> int:
    """Returns a number of some bytes with its sign."""
    return value - (1 << 8 * size) if value >> (8 * size - 1) else value

