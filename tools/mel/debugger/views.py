"""What a client shows of a moment of a play: scopes with the names of the draft, their sizes, and their bytes beside."""

from __future__ import annotations

from dataclasses import dataclass
from typing import Iterator, List, Optional

from desktexts import DYNAMIC, HEADER, PUBLIC, STATIC, Item, Section, State

from .expressions import Bytes, Value

ROW = 16
# Longer names have their bytes below them in rows.
LONG = 16


@dataclass
class Shown:
    """A line of a scope: its name, its value, its type, the expression that has it, and the address of its bytes (None without)."""

    name: str
    value: str
    type: str = ""
    expression: str = ""
    address: Optional[int] = None
    size: int = 0


def text_of(content: bytes) -> str:
    """Returns bytes in hexadecimal, as a number if they are at most 4, and as ASCII if any of them is a printable character."""
    parts = [content.hex().upper() or "-"]
    if 0 < len(content) <= 4:
        parts.append(f"({int.from_bytes(content, 'big')})")
    if any(0x21 <= it <= 0x7E for it in content):
        parts.append('"' + "".join(chr(it) if 0x20 <= it <= 0x7E else "." for it in content) + '"')
    return " ".join(parts)


def bytes_of(count: int) -> str:
    """Returns a number of bytes in words."""
    return f"{count} byte" if count == 1 else f"{count} bytes"


def value_text(value: Value) -> str:
    """Returns the value of an expression as it is shown."""
    if isinstance(value, Bytes):
        return text_of(value.content)
    return f"{value} (0x{value:X})" if value > 9 else str(value)


def rows(state: State, depth: int, address: int, count: int, register: str, base: int) -> Iterator[Shown]:
    """Bytes in rows of 16."""
    for start in range(address, address + count, ROW):
        size = min(ROW, address + count - start)
        content = state.read(depth, start, size)
        if content is not None:
            operand = f"{register}[{start - base}]"
            yield Shown(operand, text_of(content), bytes_of(size), f"{operand},{size}", start, size)


def named(state: State, depth: int, section: Optional[Section], register: str, base: int, end: int) -> Iterator[Shown]:
    """The names of a segment in the order of their places, and the bytes up to `end` that have none, in rows."""
    names = sorted((it for it in (section.names.values() if section else ()) if it.register == register), key=lambda it: it.offset)
    at = base
    for it in names:
        if base + it.offset > at:
            yield from rows(state, depth, at, base + it.offset - at, register, base)
        content = state.read(depth, base + it.offset, it.size)
        if content is not None:
            yield Shown(it.name, text_of(content), f"{it.operand},{it.size}", it.name, base + it.offset, it.size)
        at = max(at, base + it.offset + it.size)
    if at < end:
        yield from rows(state, depth, at, end - at, register, base)


def static(state: State, depth: int, section: Optional[Section]) -> List[Shown]:
    """The static bytes."""
    return list(named(state, depth, section, "SB", STATIC, STATIC + state.frames[depth - 1].static_size))


def session(state: State, depth: int, section: Optional[Section]) -> List[Shown]:
    """The session bytes."""
    return list(named(state, depth, section, "DB", DYNAMIC, state.frames[depth - 1].floor))


def local(state: State, depth: int, section: Section) -> List[Shown]:
    """The locals of a function in C, by their names."""
    found = []
    for it in section.names.values():
        address = state.frames[depth - 1].lb + it.offset
        content = state.read(depth, address, it.size) if it.register == "LB" else None
        if content is not None:
            found.append(Shown(it.name, text_of(content), f"{it.operand},{it.size}", it.name, address, it.size))
    return found


def stack(state: State, depth: int) -> List[Shown]:
    """The stack, its top first: what each instruction pushed that is still there."""
    frame = state.frames[depth - 1]
    found, end = [], frame.dt
    known: List[Item] = [it for it in frame.items if it.start >= frame.floor]
    for it in reversed(known):
        content = state.read(depth, it.start, it.end - it.start)
        if content is None:
            continue
        operand = f"DT[{it.start - frame.dt}]"
        note = f"{bytes_of(it.end - it.start)} of {it.ins}" + (f", line {it.source}" if it.source else "")
        found.append(Shown(operand, text_of(content), note, f"{operand},{it.end - it.start}", it.start, it.end - it.start))
        end = it.start
    if end > frame.floor:
        found += rows(state, depth, frame.floor, end - frame.floor, "DB", DYNAMIC)
    return found


def public(state: State, depth: int, section: Optional[Section]) -> List[Shown]:
    """The public bytes, up to the last one before the header's fields that is not zero, and at least those of the command's data."""
    used = len(bytes(state.public[:-13]).rstrip(b"\0"))
    length = int.from_bytes(state.public[-8:-6], "big")
    return list(named(state, depth, section, "PB", PUBLIC, PUBLIC + min(max(used, length), 1024)))


def header(state: State) -> List[Shown]:
    """The fields of the command's header, and of its answer."""
    found = []
    for name, offset, size in HEADER:
        at = len(state.public) + offset
        found.append(Shown(name, text_of(bytes(state.public[at:at + size])), f"PT[{offset}],{size}", name, PUBLIC + at, size))
    return found


def flags(state: State, depth: int) -> List[Shown]:
    """The flags, the registers that move, protection, and the device writes of the command so far."""
    frame = state.frames[depth - 1]
    return [Shown("C", str(frame.c), "carry or borrow", "C"), Shown("Z", str(frame.z), "zero", "Z"),
            Shown("DT", f"{frame.dt:04X}", "after the stack", "DT"), Shown("LB", f"{frame.lb:04X}", "base of the routine", "LB"),
            Shown("place", f"{frame.place:04X}"), Shown("protection", "on" if frame.open else "off"),
            Shown("writes", str(state.writes), "device writes so far")]
