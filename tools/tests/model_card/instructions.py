"""What each instruction does, and the commands to an application."""

from __future__ import annotations

import operator
from typing import Callable, Dict, Optional, Tuple

from . import primitives
from .machine import CONDITIONS, DYNAMIC, PUBLIC, Abend, Frame, Machine, signed
from .memory import Application

SW, LA, LE, LC = 0xC40F - PUBLIC, 0xC40D - PUBLIC, 0xC40B - PUBLIC, 0xC409 - PUBLIC
BITWISE = {0x1D: operator.and_, 0x1E: operator.or_, 0x1F: operator.xor}
# The rows with an immediate: the number of its bytes, and 0 set, 1 compare, 2 add, 3 subtract.
IMMEDIATE = {0x0D + 4 * wide + kind: (wide + 1, kind) for wide in (0, 1) for kind in range(4)}


def set_status(machine: Machine, tag: int) -> None:
    """SETSW, SETLA and SETSWLA, and the statuses of exits."""
    sw = machine.operand(2) if tag & 1 else None
    la = machine.operand(2) if tag & 2 else None
    machine.count += 1
    is_first = len(machine.chain) == 1
    size = la if la is not None else int.from_bytes(machine.public[LA:LA + 2], "big")
    if tag & 4 and is_first and size > 1024:
        raise Abend(9)
    for at, value in ((SW, sw), (LA, la)):
        if value is not None:
            machine.public[at:at + 2] = value.to_bytes(2, "big")


def jump(machine: Machine, op: int, tag: int) -> None:
    """BRANCH, JUMP and CALL."""
    value = machine.operand(1 if op == 1 else 2) if tag else 0
    machine.count += 1
    its = machine.frame
    if tag and not CONDITIONS[tag](its.c, its.z):
        return
    after = its.pc
    target = after + signed(value, 1) if op == 1 else value if tag else machine.pop_number(2)
    machine.go(target)
    if op == 3:
        machine.push(its.lb.to_bytes(2, "big") + after.to_bytes(2, "big"))
        its.lb = its.dt if "CALL keeps LB" not in machine.faults else its.lb


def stack(machine: Machine, tag: int) -> None:
    """The pushes and pops of op 04."""
    value = machine.operand((1, 1, 2, 0, 1, 0, 0)[tag])
    machine.count += 1
    if tag in (0, 4) and value == 0:
        raise Abend(6)
    if tag < 3:
        machine.push((bytes(value), bytes([value & 0xFF]), value.to_bytes(2, "big"))[tag])
    else:
        machine.pop((value, 1, 2)[tag - 4])


def give_back(machine: Machine, tag: int) -> None:
    """RET, RETI, RETO and RETIO."""
    i = machine.operand(1) if tag & 1 else 0
    o = machine.operand(1) if tag & 2 else 0
    machine.count += 1
    its = machine.frame
    down = its.lb - 4 - i
    if down < its.floor or its.dt < its.lb + o:
        raise Abend(4)
    old, target = machine.read(its.lb - 4, 2), int.from_bytes(machine.read(its.lb - 2, 2), "big")
    top = machine.read(its.dt - o, o)
    machine.go(target)
    its.dynamic[down - DYNAMIC:down - DYNAMIC + o] = top
    its.dt, its.lb = down + o, int.from_bytes(old, "big")


def copy(machine: Machine, op: int, tag: int) -> None:
    """LOAD, STORE, LOADI and STOREI."""
    size = machine.operand(1)
    offset = signed(machine.operand(2), 2) if tag else 0
    machine.count += 1
    if size == 0:
        raise Abend(6)
    top = machine.frame.dt
    if op in (7, 9):
        width = size if op == 7 else 2
        at = machine.register(tag, offset) if tag else machine.below(width)
        if op == 9:
            at = int.from_bytes(machine.read(at, 2), "big")
        machine.push(machine.read(at, size))
        return
    lower = machine.below(size)
    if tag:
        at = machine.register(tag, offset)
        target = at if op == 8 else int.from_bytes(machine.read(at, 2), "big")
    else:
        at = machine.below(size if op == 8 else 2, lower)
        target = at if op == 8 else int.from_bytes(machine.read(at, 2), "big")
    content = machine.read(top - size, size)
    machine.write(target, content, lower)
    machine.frame.dt = lower


def address(machine: Machine, op: int, tag: int) -> None:
    """LOADA and INDEX."""
    size = machine.operand(1) if op == 0x0C else 0
    offset = signed(machine.operand(2), 2) if tag else 0
    machine.count += 1
    its, top = machine.frame, machine.frame.dt
    taken = 0 if op == 0x0B else 1 if tag else 3
    lower = machine.below(taken)
    content = bytes(its.dynamic[lower - DYNAMIC:top - DYNAMIC])
    base = machine.register(tag, offset) if tag else top if op == 0x0B else int.from_bytes(content[:2], "big")
    at = base + (content[-1] * size if op == 0x0C else 0)
    if at > 0xFFFF:
        raise Abend(3)
    its.dt = lower
    machine.push(at.to_bytes(2, "big"))


def put(machine: Machine, at: int, value: int, size: int) -> None:
    """Writes a number, modulo its size."""
    machine.write(at, (value % 256 ** size).to_bytes(size, "big"))


def immediate(machine: Machine, op: int, tag: int) -> None:
    """The rows with an immediate, SETB to SUBW."""
    size, kind = IMMEDIATE[op]
    value = machine.operand(size)
    offset = signed(machine.operand(2), 2) if tag else 0
    machine.count += 1
    at = machine.register(tag, offset) if tag else machine.below(size)
    old = int.from_bytes(machine.read(at, size), "big")
    if kind == 0:
        put(machine, at, value, size)
        return
    result = old + value if kind == 2 else old - value
    if kind != 1:
        put(machine, at, result, size)
    machine.flag(result % 256 ** size == 0, not 0 <= result < 256 ** size)


def single(machine: Machine, op: int, tag: int) -> None:
    """CLEARN, TESTN, INCN, DECN and NOTN."""
    size = machine.operand(1)
    offset = signed(machine.operand(2), 2) if tag else 0
    machine.count += 1
    if size == 0 or op in (0x17, 0x18) and size > 16:
        raise Abend(6)
    at = machine.register(tag, offset) if tag else machine.below(size)
    old = int.from_bytes(machine.read(at, size), "big")
    result = {0x15: 0, 0x16: old, 0x17: old + 1, 0x18: old - 1, 0x19: ~old}[op]
    if op != 0x16:
        put(machine, at, result, size)
    has_carry = op in (0x17, 0x18) and "no carry of INCN" not in machine.faults
    machine.flag(result % 256 ** size == 0, not 0 <= result < 256 ** size if has_carry else None)


def double(machine: Machine, op: int, tag: int) -> None:
    """CMPN to XORN."""
    size = machine.operand(1)
    offset = signed(machine.operand(2), 2) if tag else 0
    machine.count += 1
    if size == 0 or op in (0x1B, 0x1C) and size > 16:
        raise Abend(6)
    lower = machine.below(size)
    at = machine.register(tag, offset) if tag else machine.below(size, lower)
    second = int.from_bytes(machine.read(lower, size), "big")
    first = int.from_bytes(machine.read(at, size), "big")
    if op in BITWISE:
        result = BITWISE[op](first, second)
    else:
        result = first + second if op == 0x1B else first - second
    if op != 0x1A:
        put(machine, at, result, size)
    has_carry = op not in BITWISE and not (op == 0x1A and "no borrow of CMPN" in machine.faults)
    machine.flag(result % 256 ** size == 0, not 0 <= result < 256 ** size if has_carry else None)


Row = Callable[[Machine, int, int], None]
ROWS: Dict[int, Row] = {
    1: jump, 2: jump, 3: jump, 4: lambda machine, op, tag: stack(machine, tag), 7: copy, 8: copy, 9: copy, 0x0A: copy, 0x0B: address,
    0x0C: address, **{it: immediate for it in IMMEDIATE}, **{it: single for it in range(0x15, 0x1A)}, **{it: double for it in range(0x1A, 0x20)}}


def turn(machine: Machine) -> Optional[bytes]:
    """Executes one instruction; returns the name that a delegation calls, no bytes at an exit, and None if the frame goes on."""
    its = machine.frame
    if machine.count >= machine.budget:
        raise Abend(7)
    if its.pc >= len(its.app.code):
        raise Abend(2)
    op, tag = divmod(its.app.code[its.pc], 8)
    its.pc += 1
    if op == 6 or (op, tag) in ((1, 0), (4, 3), (4, 7)):
        if "an undefined byte does nothing" in machine.faults:
            machine.count += 1
            return None
        raise Abend(1)
    if op == 0:
        set_status(machine, tag)
        return b"" if tag & 4 else None
    if op == 5 and tag < 4:
        return primitives.run(machine, tag)
    if op == 5:
        give_back(machine, tag)
        return None
    ROWS[op](machine, op, tag)
    return None


# ---- commands


def begin(machine: Machine, name: bytes, applications: Dict[bytes, Application]) -> None:
    """Delegates to the application of a name, or says in SW why not."""
    faults, app = machine.faults, applications.get(name)
    is_active = any(it.app.aid == name for it in machine.chain) and "an active application is entered again" not in faults
    deepest = 4 + ("a chain of five" in faults) - ("a chain of three" in faults)
    if app is None or is_active or len(machine.chain) >= deepest:
        machine.public[SW:SW + 2] = bytes.fromhex("6A82" if app is None else "6985")
        return
    made = Frame(app)
    if "session bytes of a delegate are kept" in faults:
        made.dynamic[:app.session] = machine.kept.get(name, bytes(app.session))
    if "delegation commits" in faults:
        machine.commit(machine.frame)
    if "a delegate is protected, too" in faults:
        made.is_protected = machine.frame.is_protected
    if "public bytes are cleared for a delegate" in faults:
        machine.public[:64] = bytes(64)
    machine.chain.append(made)


def leave(machine: Machine) -> bool:
    """Ends the frame that runs, and returns whether it was the last."""
    its = machine.frame
    if "an exit commits" in machine.faults:
        machine.commit(its)
    machine.kept[its.app.aid] = bytes(its.dynamic[:its.app.session])
    if len(machine.chain) == 1:
        return True
    machine.chain.pop()
    return False


def run(machine: Machine, applications: Dict[bytes, Application]) -> None:
    """Runs a chain to its end, or abends."""
    while True:
        try:
            found = turn(machine)
        except Abend as why:
            if "an abend commits" in machine.faults:
                machine.commit(machine.frame)
            if "an abend ends the delegate alone" not in machine.faults or len(machine.chain) == 1:
                raise why
            machine.chain.pop()
            continue
        if found == b"" and leave(machine):
            return
        if found:
            begin(machine, found, applications)


def public_of(command: bytes, data: bytes, le: Optional[int], p3: int) -> bytearray:
    """Returns the public bytes at the start of a command."""
    public = bytearray(0xC411 - PUBLIC)
    public[:len(data)] = data
    public[LC - 5:LC] = command[:4] + bytes([p3])
    for at, value in ((LC, len(data)), (LE, le or 0), (SW, 0x9000)):
        public[at:at + 2] = value.to_bytes(2, "big")
    return public


def reply_of(machine: Machine, le: Optional[int]) -> bytes:
    """Returns the reply of a chain that ended with an exit."""
    la, sw = (int.from_bytes(machine.public[at:at + 2], "big") for at in (LA, SW))
    size = la if le is None and "a reply without Le has all data" in machine.faults else min(la, le or 0)
    return bytes(machine.public[:size]) + sw.to_bytes(2, "big")


def parsed(command: bytes) -> Optional[Tuple[int, bytes, Optional[int], int]]:
    """Returns case, data, Le and P3 of a command, or None if its length is wrong."""
    size = len(command)
    if size < 4:
        return None
    if size == 4:
        return 1, b"", None, 0
    p3 = command[4]
    if size == 5:
        return 2, b"", p3 or 256, p3
    if p3 and size in (5 + p3, 6 + p3):
        return 3 + (size == 6 + p3), command[5:5 + p3], (command[-1] or 256) if size == 6 + p3 else None, p3
    extended = int.from_bytes(command[5:7], "big")
    if p3 == 0 and size == 7:
        return 2, b"", extended or 65535, 0
    if p3 == 0 and 1 <= extended <= 1024 and size == 7 + extended:
        return 3, command[7:], None, 0
    if p3 == 0 and 1 <= extended <= 1024 and size == 9 + extended:
        return 4, command[7:7 + extended], int.from_bytes(command[-2:], "big") or 65535, 0
    return None
