"""The primitives: what PRIM does with its set, its number and its arguments."""

from __future__ import annotations

import hashlib
from typing import Callable, Dict, List, Optional, Tuple

from .ciphers import aes, des, triple_des
from .machine import Abend, Machine

# Each cipher of a number: its name, bytes of a block and of a key, whether it deciphers, and whether it signs.
Cipher = Tuple[Callable[[bytes, bytes, bool], bytes], int, int, bool, bool]
CIPHERS: Dict[int, Cipher] = {
    4: (des, 8, 8, False, False), 5: (des, 8, 8, True, False), 6: (triple_des, 8, 16, False, False), 7: (triple_des, 8, 16, True, False),
    8: (des, 8, 8, False, True), 9: (triple_des, 8, 16, False, True), 10: (aes, 16, 16, False, False), 11: (aes, 16, 16, True, False),
    12: (aes, 16, 16, False, True)}
PAIRS = {(0, it) for it in range(1, 10)} | {(1, it) for it in range(1, 13)} | {(2, 1), (2, 2), (2, 3), (3, 1)}


def denied(machine: Machine, pair: Tuple[int, int]) -> bool:
    """Whether the access list denies a primitive."""
    access = machine.frame.app.access
    if "access lists are ignored" in machine.faults:
        return False
    bit = 1 if pair[0] == 1 and pair[1] in CIPHERS else {(0, 7): 2, (0, 8): 4, (1, 3): 8}.get(pair, 0)
    if "access bits 2 and 4 are swapped" in machine.faults:
        bit = {2: 4, 4: 2}.get(bit, bit)
    return bool(access & bit)


def check_own(pair: Tuple[int, int], given: List[int]) -> None:
    """Abends with 06 if the instruction's own bytes are out of range."""
    if pair not in PAIRS:
        raise Abend(6)
    is_good = True
    if pair in ((1, 1), (1, 2)):
        is_good = given[0] > 0
    elif pair == (1, 3):
        is_good = given[0] <= 3
    elif pair[0] == 1:
        block = CIPHERS[pair[1]][1]
        is_good = given[0] > 0 and given[0] % block == 0
    elif pair in ((2, 1), (3, 1)):
        is_good = given[0] <= 3
    elif pair[0] == 2:
        is_good = 1 <= given[0] <= 16 and 1 <= given[1] < 8 * given[0]
    if not is_good:
        raise Abend(6)


def run(machine: Machine, arguments: int) -> Optional[bytes]:
    """Runs a primitive; returns the name that Delegate calls, else None."""
    number = machine.operand(1)
    given = [machine.operand(1) for _ in range(arguments)]
    machine.count += 1
    pair = arguments, number
    check_own(pair, given)
    if denied(machine, pair):
        raise Abend(0x0A)
    if pair == (0, 7):
        return delegate(machine)
    if arguments == 1 and number in CIPHERS:
        cipher(machine, number, given[0])
    elif pair in ((2, 2), (2, 3)):
        shift(machine, number, *given)
    elif pair in ((2, 1), (3, 1)):
        bits(machine, given[0], int.from_bytes(bytes(given[1:]), "big"), arguments - 1)
    elif pair in ((1, 1), (1, 2)):
        block(machine, number == 1, given[0])
    elif pair == (1, 3):
        protect(machine, given[0])
    else:
        PLAIN[number](machine)
    return None


def delegate(machine: Machine) -> bytes:
    """Delegate: the name that is called."""
    at = machine.pop_number(2)
    size = machine.read(at, 1)[0]
    if not 5 <= size <= 16:
        raise Abend(6)
    return machine.read(at + 1, size)


def cipher(machine: Machine, number: int, size: int) -> None:
    """The ciphers and signatures."""
    run_block, width, key_size, is_inverse, is_signature = CIPHERS[number]
    places = machine.pop(8 if is_signature else 6)
    *first, source, target, key_at = (int.from_bytes(places[it:it + 2], "big") for it in range(0, len(places), 2))
    key, content = machine.read(key_at, key_size), machine.read(source, size)
    last = machine.read(first[0], width) if is_signature else bytes(width)
    parts = []
    for at in range(0, size, width):
        part = content[at:at + width]
        if is_signature:
            part = bytes(a ^ b for a, b in zip(part, last))
        last = run_block(part, key, is_inverse)
        parts.append(last)
    machine.write(target, last if is_signature else b"".join(parts))


def shift(machine: Machine, number: int, size: int, count: int) -> None:
    """The shifts of the top bytes."""
    at = machine.below(size)
    value = int.from_bytes(machine.read(at, size), "big")
    if number == 2:
        out, result = value >> (8 * size - count) & 1, value << count & (1 << 8 * size) - 1
    else:
        out, result = value >> (count - 1) & 1, value >> count
    machine.write(at, result.to_bytes(size, "big"))
    machine.flag(result == 0, None if "no carry of a shift" in machine.faults else bool(out))


def bits(machine: Machine, op: int, mask: int, size: int) -> None:
    """Bit Manipulate Byte and Word."""
    at = machine.below(size)
    value = int.from_bytes(machine.read(at, size), "big")
    result = (value & ~mask, value | mask, value ^ mask, value & mask)[op]
    if op < 3:
        machine.write(at, result.to_bytes(size, "big"))
    machine.flag(result == 0)


def compared(machine: Machine, first: bytes, second: bytes) -> None:
    """Sets the flags as CMPN does."""
    machine.flag(first == second, first < second)


def block(machine: Machine, is_compare: bool, size: int) -> None:
    """Memory Compare and Memory Copy of a fixed length."""
    places = machine.pop(4)
    first, second = int.from_bytes(places[:2], "big"), int.from_bytes(places[2:], "big")
    if is_compare:
        compared(machine, machine.read(first, size), machine.read(second, size))
    else:
        machine.write(first, machine.read(second, size))


def sized_block(machine: Machine, is_compare: bool) -> None:
    """Memory Compare and Memory Copy, with the length on the stack."""
    places = machine.pop(6)
    size, first, second = (int.from_bytes(places[it:it + 2], "big") for it in (0, 2, 4))
    if not 1 <= size <= 255:
        raise Abend(6)
    if is_compare:
        compared(machine, machine.read(first, size), machine.read(second, size))
    else:
        machine.write(first, machine.read(second, size))


def protect(machine: Machine, mode: int) -> None:
    """Set Transaction Protection."""
    its, faults = machine.frame, machine.faults
    if "the beginning of protection is ignored" in faults and mode & 2:
        return
    if mode & 1 or "a drop commits" in faults:
        machine.commit(its)
    its.pending = {}
    its.is_protected = bool(mode & 2) and not ("protection ends with a commit" in faults and mode == 3)


def check_case(machine: Machine) -> None:
    """Check Case."""
    case = machine.pop(1)[0]
    if not 1 <= case <= 4 and "every case can be asked for" not in machine.faults:
        raise Abend(6)
    machine.flag(machine.case == case)


def lookup(machine: Machine) -> None:
    """Lookup."""
    content = machine.pop(3)
    at = int.from_bytes(content[1:], "big")
    table = machine.read(at + 1, machine.read(at, 1)[0])
    found = table.find(content[:1])
    machine.push(bytes([max(found, 0) + ("a table is looked up from 1" in machine.faults)]))
    machine.flag(found >= 0)


def delegator(machine: Machine) -> None:
    """Get Delegator AID."""
    at = machine.pop_number(2)
    if len(machine.chain) > 1:
        name = machine.chain[0 if "the first frame is every delegator" in machine.faults else -2].app.aid
        machine.write(at, bytes([len(name)]) + name)
    machine.flag(len(machine.chain) == 1)


def digest(machine: Machine) -> None:
    """SHA-1."""
    places = machine.pop(6)
    size, source, target = (int.from_bytes(places[it:it + 2], "big") for it in (0, 2, 4))
    machine.segment(target, 20, machine.frame.dt)
    if not 1 <= size <= 255:
        raise Abend(6)
    size -= "the digest leaves the last byte out" in machine.faults
    machine.write(target, hashlib.sha1(machine.read(source, size)).digest())


def load_flags(machine: Machine) -> None:
    """Load CCR."""
    machine.push(bytes([2 * machine.frame.c + machine.frame.z]))


def store_flags(machine: Machine) -> None:
    """Store CCR."""
    value = machine.pop(1)[0]
    machine.flag(bool(value & 1), bool(value & 2))


PLAIN: Dict[int, Callable[[Machine], None]] = {
    1: check_case, 2: load_flags, 3: store_flags, 4: lookup, 5: lambda it: sized_block(it, True), 6: lambda it: sized_block(it, False),
    8: delegator, 9: digest}
