"""The types of the subset: numbers of one, two and four bytes, arrays, structs and unions, packed and big endian."""

from __future__ import annotations

from dataclasses import dataclass, field
from typing import Dict, Tuple, Union


@dataclass(frozen=True)
class Number:
    """A type of numbers: its name, its bytes in memory, and its least and greatest value."""

    name: str
    size: int
    low: int
    high: int

    @property
    def is_object(self) -> bool:
        """Whether an object may have this type."""
        return self in (U8, U16, U32)


U8, U16, U32 = Number("BYTE", 1, 0, 0xFF), Number("WORD", 2, 0, 0xFFFF), Number("DWORD", 4, 0, 0xFFFFFFFF)
# `int` is a type of expressions alone. So is that of `sizeof`: its 64 bits on a PC are never used beyond 32.
INT, SIZE = Number("int", 4, -0x80000000, 0x7FFFFFFF), Number("size_t", 8, 0, 0xFFFFFFFF)
VOID = Number("void", 0, 0, 0)


@dataclass(frozen=True)
class Array:
    """A number of elements of one type."""

    element: "Kind"
    count: int

    @property
    def size(self) -> int:
        """The bytes of all elements."""
        return self.element.size * self.count


@dataclass
class Record:
    """A struct or a union: its members with their offsets, in order, and its bytes. One that is not complete has no bytes."""

    name: str
    is_union: bool
    members: Dict[str, Tuple[int, "Kind"]] = field(default_factory=dict)
    size: int = 0


Kind = Union[Number, Array, Record]


def bytes_for(high: int) -> int:
    """Returns the number of bytes, 1 at least, that hold the numbers from 0 to `high`."""
    return max(1, (high.bit_length() + 7) // 8)
