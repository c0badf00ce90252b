"""Selection of instructions: takes expressions and places of the typed tree, and appends the instructions that evaluate them to a block.

The height is the number of bytes above LB. What a method pushes is big endian, and it says how many bytes these are. `loose` may leave other
bytes below what it pushes, and returns how many.
"""

from __future__ import annotations

from typing import Dict, List, Optional

from .code import FIXED, IMMEDIATE, Block, Branch, End, Goto, Ins, Spot
from .expressions import FLIPPED
from .faults import At
from .kinds import bytes_for
from .tree import (Asked, Binary, Blocks, Called, Choice, Compare, Const, Convert, Expr, Load, Logic, Place, Unary, Variable, calls_in)

REGISTERS = {"static": "SB", "session": "DB", "public": "PB", "header": "PT", "local": "LB"}
CONDITIONS = {"==": "EQ", "!=": "NE", "<": "LT", "<=": "LE", ">": "GT", ">=": "GE"}
# Comparisons with 0 or 1 that are the same as a comparison with 0 by == or !=.
ZERO = {("==", 0): "EQ", ("!=", 0): "NE", (">", 0): "NE", ("<=", 0): "EQ", (">=", 1): "NE", ("<", 1): "EQ"}
WORDS = {"+": "ADDN", "-": "SUBN", "&": "ANDN", "|": "ORN", "^": "XORN"}
MOST_CODE = 8192
LONGEST = 255


class TooMuch(Exception):
    """Why there is too much code, or too much on the stack."""


def core(expr: Expr) -> Expr:
    """Returns an expression without conversions that change no value."""
    while isinstance(expr, Convert) and (expr.low, expr.high) == (expr.operand.low, expr.operand.high):
        expr = expr.operand
    return expr


def cut_to(expr: Expr, count: int) -> Expr:
    """Returns an expression without conversions that leave its lowest bytes as they are."""
    while isinstance(expr, Convert) and min(expr.type.size, 4) >= count:
        expr = expr.operand
    return expr


def is_same(one: Place, other: Place) -> bool:
    """Whether two places are one object with a constant address, or were made as one."""
    return one is other or (one.is_fixed and other.is_fixed and one.variable is other.variable and one.offset == other.offset
                            and one.kind.size == other.kind.size)


class Selection:
    """Code that is being made: its blocks in order, the one that is written now, and the height there."""

    def __init__(self) -> None:
        self.blocks: List[Block] = []
        self.current = Block(0, "")
        self.height = self.most = self.size = 0
        self.routine = ""
        self.at = At("", 0)
        self.homes: Dict[Variable, int] = {}

    # ---- blocks

    def block(self, height: Optional[int] = None) -> Block:
        """Returns a new block, which begins at this height or another."""
        return Block(self.height if height is None else height, self.routine)

    def start(self, block: Block) -> None:
        """Goes on in a block; one before it that has no end goes on there, too."""
        if self.current.end is None:
            self.current.end = Goto(block, self.at)
        self.blocks.append(block)
        self.current, self.height = block, block.height

    def close(self, end: End) -> None:
        """Ends the current block. What is written after it is reached by nothing."""
        if self.current.end is None:
            self.current.end = end
        self.current = self.block()
        self.blocks.append(self.current)

    def emit(self, word: str, operands: str = "", change: int = 0) -> None:
        """Appends an instruction without an operand in memory, which changes the height."""
        self._append(word, operands, FIXED[word] if word != "PRIM" else 2 + operands.count(","), change)

    def at_top(self, word: str, number: Optional[int] = None, change: int = 0) -> None:
        """Appends an instruction that works on the top of the stack."""
        self._append(word, "" if number is None else str(number), 1 + IMMEDIATE[word], change)

    def at_spot(self, word: str, spot: Spot, number: Optional[int] = None, change: int = 0) -> None:
        """Appends an instruction with an operand in memory."""
        self._append(word, spot.operand(word, number), 3 + IMMEDIATE[word], change)

    def _append(self, word: str, operands: str, size: int, change: int) -> None:
        self.current.code.append(Ins(word, operands, size, self.at))
        self.height += change
        self.most = max(self.most, self.height)
        self.size += size
        if self.size > 4 * MOST_CODE:
            raise TooMuch

    # ---- the stack

    def zeros(self, count: int) -> None:
        """Pushes zeros."""
        last = self.current.code[-1] if self.current.code else None
        if last is not None and last.word == "PUSHZ" and last.at == self.at and count and int(last.operands) + count <= LONGEST:
            last.operands = str(int(last.operands) + count)
            self.height += count
            self.most = max(self.most, self.height)
            return
        while count > 0:
            part = min(count, LONGEST)
            self.emit("PUSHZ", str(part), part)
            count -= part

    def drop(self, count: int) -> None:
        """Pops bytes; the flags stay."""
        while count > 0:
            part = min(count, LONGEST)
            self.emit(*{1: ("POPB", ""), 2: ("POPW", "")}.get(part, ("POPN", str(part))), change=-part)
            count -= part

    def content(self, content: bytes) -> None:
        """Pushes constant bytes."""
        place = 0
        while place < len(content):
            end = place
            while end < len(content) and content[end] == 0:
                end += 1
            left = len(content) - place
            if end - place > 1 or end > place and left % 2:
                self.zeros(end - place)
                place = end
            elif left > 1:
                self.emit("PUSHW", f"0x{int.from_bytes(content[place:place + 2], 'big'):04X}", 2)
                place += 2
            else:
                self.emit("PUSHB", str(content[place]), 1)
                place += 1

    def number(self, value: int, count: int) -> None:
        """Pushes a constant."""
        self.content((value % (1 << 8 * count)).to_bytes(count, "big"))

    def squeeze(self, count: int, other: int) -> None:
        """Takes away bytes that lie below the top `count` ones."""
        if not other:
            return
        if other == count:
            self.at_top("STORE", count, -count)
        elif other > count:
            self.at_spot("STORE", Spot("DT", -count - other), count, -count)
            self.drop(other - count)
        else:
            self.emit("PRIM", f"2,{count + other},{8 * other}")
            self.drop(other)

    # ---- places

    def spot(self, place: Place) -> Spot:
        """Returns the operand of a place, or of the object that its indexes begin at."""
        it = place.variable
        if it.memory == "local":
            return Spot("LB", self.homes[it] + place.offset)
        named = it.kind.size - place.offset
        return Spot(REGISTERS[it.memory], it.offset + place.offset, it.name, place.offset, named)

    def is_on_top(self, expr: Expr, count: int) -> bool:
        """Whether an expression is the local that is the top of the stack, of this many bytes."""
        expr = core(expr)
        return (isinstance(expr, Load) and expr.place.is_fixed and expr.place.variable.memory == "local" and expr.type.size == count
                and self.homes[expr.place.variable] + expr.place.offset + count == self.height)

    def fixed(self, expr: Expr, count: int) -> Optional[Spot]:
        """Returns where an expression lies in memory with this many bytes, or None."""
        expr = core(expr)
        if isinstance(expr, Load) and expr.place.is_fixed and expr.type.size == count:
            return self.spot(expr.place)
        return None

    def address(self, place: Place, more: int = 0) -> None:
        """Pushes the two bytes of an address, `more` bytes into the place."""
        spot, is_there = self.spot(place).later(more), False
        if place.is_fixed:
            self.at_spot("LOADA", spot, None, 2)
        for index, size in place.indexes:
            if index.high <= 255 and size <= LONGEST:
                self.push(index, 1)
                if is_there:
                    self.at_top("INDEX", size, -1)
                else:
                    self.at_spot("INDEX", spot, size, 1)
            else:
                if not is_there:
                    self.at_spot("LOADA", spot, None, 2)
                self.push(index, 2)
                self._times(size, 2)
                self.at_top("ADDN", 2)
                self.drop(2)
            is_there = True

    # ---- values

    def push(self, expr: Expr, count: int) -> None:
        """Pushes the lowest `count` bytes of a value."""
        expr = cut_to(expr, count)
        if expr.value is not None:
            self.effects(expr)
            self.number(expr.value, count)
            return
        need = bytes_for(expr.high) if expr.low >= 0 else count
        if need < count:
            self.zeros(count - need)
            self.push(expr, need)
        else:
            self.squeeze(count, self._pushed(expr, count))

    def loose(self, expr: Expr, count: int) -> int:
        """Pushes as `push` does; returns the number of other bytes that lie below."""
        expr = cut_to(expr, count)
        if isinstance(expr, Load) and not expr.place.is_fixed and bytes_for(expr.high) >= count:
            return self._loaded(expr, count)
        self.push(expr, count)
        return 0

    def _pushed(self, expr: Expr, count: int) -> int:
        """Pushes a value that needs these bytes; returns the number of other bytes below."""
        if isinstance(expr, Load):
            return self._loaded(expr, count)
        if isinstance(expr, Unary):
            self.push(expr.operand, count)
            self.at_top("NOTN", count)
            if expr.op == "-":
                self.at_top("INCN", count)
        elif isinstance(expr, Binary):
            return self._operated(expr, count)
        elif isinstance(expr, Choice):
            self._chosen(expr, count)
        elif isinstance(expr, Called):
            self.call(expr, count)
        elif isinstance(expr, Convert):
            self.push(expr.operand, count)
        else:
            self._truth(expr, count)
        return 0

    def _loaded(self, expr: Load, count: int) -> int:
        more = expr.type.size - count
        if expr.place.is_fixed:
            self.at_spot("LOAD", self.spot(expr.place).later(more), count, count)
            return 0
        self.address(expr.place, more)
        self.at_top("LOADI", count, count)
        return 2

    def _operated(self, expr: Binary, count: int) -> int:
        if expr.op == ">>":
            return self._right(expr, count)
        left, right = expr.left, expr.right
        if expr.op in "+&|^" and isinstance(left, Const):
            left, right = right, left
        if expr.op == "<<":
            places = right.low // 8
            if places >= count:
                self.effects(left)
                self.zeros(count)
                return 0
            self.push(left, count - places)
            if right.low % 8:
                self.emit("PRIM", f"2,{count - places},{right.low % 8}")
            self.zeros(places)
            return 0
        if expr.op in "|" and isinstance(right, Const) and left.low >= 0 and self._joined(left, right.low, count):
            return 0
        self.push(left, count)
        self.apply(expr.op, right, count)
        return 0

    def _joined(self, left: Expr, mask: int, count: int) -> bool:
        """Pushes `left | mask` if the upper bytes are those of the mask alone; returns whether it did."""
        need = bytes_for(left.high)
        if need >= count:
            return False
        self.number(mask >> 8 * need, count - need)
        self.push(left, need)
        if mask % (1 << 8 * need):
            self._mask("|", mask, need)
        return True

    def _right(self, expr: Binary, count: int) -> int:
        """Pushes `left >> K`: the bytes that fall out are popped, or not loaded."""
        places, bits = expr.right.low // 8, expr.right.low % 8
        need = min(bytes_for(expr.left.high), count + places + (bits > 0))
        left = cut_to(expr.left, need)
        if isinstance(left, Load) and left.place.is_fixed and left.type.size >= need:
            self.at_spot("LOAD", self.spot(left.place).later(left.type.size - need), need - places, need - places)
        else:
            self.push(left, need)
            self.drop(places)
        if bits:
            self.emit("PRIM", f"3,{need - places},{bits}")
        if need - places < count:
            raise AssertionError("a shift has fewer bytes than its range")
        return need - places - count

    def apply(self, op: str, right: Expr, count: int) -> None:
        """Replaces the top bytes by an operation of them and a value."""
        value = right.value if isinstance(right, Const) else None
        if value is None:
            self.push(right, count)
            self.at_top(WORDS[op], count)
            self.drop(count)
        elif op in "+-":
            self._added(value if op == "+" else -value, op, count)
        elif op in "&|^":
            if count <= 2:
                self._mask(op, value, count)
            else:
                self.number(value, count)
                self.at_top(WORDS[op], count)
                self.drop(count)
        elif op == "*":
            self._times(value, count)
        elif op == "<<":
            self._shifted(value, count, "2")
        else:
            self._shifted(value, count, "3")

    def _shifted(self, value: int, count: int, number: str) -> None:
        if value >= 8 * count:
            self.at_top("CLEARN", count)
        elif value:
            self.emit("PRIM", f"{number},{count},{value}")

    def _mask(self, op: str, value: int, count: int) -> None:
        mask = value % (1 << 8 * count)
        if op == "&":
            mask ^= (1 << 8 * count) - 1
        if not mask:
            return
        digits = ",".join(f"0x{it:02X}" for it in mask.to_bytes(count, "big"))
        self.emit("PRIM", f"1,{'&|^'.index(op)},{digits}")

    def _added(self, value: int, op: str, count: int) -> None:
        """Adds a constant to the top bytes."""
        value %= 1 << 8 * count
        less = -value % (1 << 8 * count)
        if value == 1:
            self.at_top("INCN", count)
        elif less == 1:
            self.at_top("DECN", count)
        elif count > 2:
            self.number(value if op == "+" else less, count)
            self.at_top("ADDN" if op == "+" else "SUBN", count)
            self.drop(count)
        elif value:
            self.at_top({1: "ADDB", 2: "ADDW"}[count] if op == "+" else {1: "SUBB", 2: "SUBW"}[count], value if op == "+" else less)

    def _times(self, value: int, count: int) -> None:
        """Multiplies the top bytes by a constant: by shifts, and a sum of them."""
        value %= 1 << 8 * count
        if not value:
            self.at_top("CLEARN", count)
            return
        low = (value & -value).bit_length() - 1
        if low:
            self.emit("PRIM", f"2,{count},{low}")
        value >>= low
        if value == 1:
            return
        self.at_top("LOAD", count, count)
        last = 0
        for bit in range(1, value.bit_length()):
            if value >> bit & 1:
                self.emit("PRIM", f"2,{count},{bit - last}")
                self.at_top("ADDN", count)
                last = bit
        self.drop(count)

    def _chosen(self, expr: Choice, count: int) -> None:
        yes, no, end = self.block(), self.block(), self.block(self.height + count)
        self.branch(expr.condition, yes, no)
        self.start(yes)
        self.push(expr.yes, count)
        self.close(Goto(end, self.at))
        self.start(no)
        self.push(expr.no, count)
        self.start(end)

    def _truth(self, expr: Expr, count: int) -> None:
        self.zeros(count)
        yes, end = self.block(), self.block()
        self.branch(expr, yes, end)
        self.start(yes)
        self.at_spot("SETB", Spot("DT", -1), 1)
        self.start(end)

    def effects(self, expr: Expr) -> None:
        """Does the calls of an expression whose value is known, or not asked for."""
        if not calls_in(expr):
            return
        if isinstance(expr, Called):
            self.call(expr, 0)
        elif isinstance(expr, (Logic, Choice, Asked)):
            if isinstance(expr, Choice):
                yes, no, end = self.block(), self.block(), self.block()
                self.branch(expr.condition, yes, no)
                self.start(yes)
                self.effects(expr.yes)
                self.close(Goto(end, self.at))
                self.start(no)
                self.effects(expr.no)
                self.start(end)
            else:
                end = self.block()
                self.branch(expr, end, end)
                self.start(end)
        else:
            for it in expr.parts():
                self.effects(it)

    def call(self, expr: Called, count: int) -> None:
        """Pushes the lowest `count` bytes of the result of a function; the lowering replaces this."""
        raise NotImplementedError

    # ---- conditions

    def branch(self, expr: Expr, yes: Block, no: Block) -> None:
        """Ends the block: it goes on in `yes` if a condition is true, else in `no`."""
        if isinstance(expr, Logic) and expr.op == "!":
            self.branch(expr.operands[0], no, yes)
        elif isinstance(expr, Logic) and (expr.value is None or calls_in(expr)):
            after = self.block()
            self.branch(expr.operands[0], *((after, no) if expr.op == "&&" else (yes, after)))
            self.start(after)
            self.branch(expr.operands[1], yes, no)
        elif expr.value is not None:
            self.effects(expr)
            self.close(Goto(yes if expr.value else no, self.at))
        else:
            self.at = expr.at if expr.at.line else self.at
            condition = self._flags(expr)
            self.close(Branch(condition, yes, no, self.at))

    def _flags(self, expr: Expr) -> str:
        """Sets the flags; returns the condition under which an expression is true."""
        if isinstance(expr, Compare):
            return self._compared(expr)
        if isinstance(expr, Blocks):
            return self._blocks(expr)
        assert isinstance(expr, Asked)
        self.ask(expr.pushed, expr.operands)
        return expr.condition

    def ask(self, pushed: List[object], operands: str) -> None:
        """Does a primitive that pops what it is given."""
        before = self.height
        for it in pushed:
            if isinstance(it, Place):
                self.address(it)
            else:
                assert isinstance(it, tuple)
                self.push(*it)
        self.emit("PRIM", operands, before - self.height)

    def _blocks(self, expr: Blocks) -> str:
        """Compares two blocks: the second is pushed, the first stays where it lies."""
        count, before = expr.count, self.height
        if not expr.left.is_fixed:
            self.bytes_of(expr.left, count)
        self.bytes_of(expr.right, count)
        if expr.left.is_fixed:
            self.at_spot("CMPN", self.spot(expr.left), count)
        else:
            if not expr.right.is_fixed:
                # The address of the second lies between the two.
                self.at_spot("CMPN", Spot("DT", -2 * count - 2), count)
            else:
                self.at_top("CMPN", count)
        self.drop(self.height - before)
        return CONDITIONS[expr.op]

    def bytes_of(self, place: Place, count: int) -> None:
        """Pushes the bytes of a place, above its address if that is no constant."""
        if place.is_fixed:
            self.at_spot("LOAD", self.spot(place), count, count)
        else:
            self.address(place)
            self.at_top("LOADI", count, count)

    def _compared(self, expr: Compare) -> str:
        op, left, right = expr.op, expr.left, expr.right
        if isinstance(left, Const):
            op, left, right = FLIPPED[op], right, left
        low, high = min(left.low, right.low), max(left.high, right.high)
        count = bytes_for(high if low >= 0 else high - low)
        if right.value is not None and not calls_in(right):
            return self._with_constant(op, left, right.value, count)
        spot = self.fixed(left, count)
        if spot is not None:
            if self.is_on_top(right, count):
                self.at_spot("CMPN", spot, count)
            else:
                other = self.loose(right, count)
                self.at_spot("CMPN", spot, count)
                self.drop(count + other)
            return CONDITIONS[op]
        spot = self.fixed(right, count)
        if spot is not None:
            other = self.loose(left, count)
            self.at_spot("CMPN", spot, count)
            self.drop(count + other)
            return CONDITIONS[FLIPPED[op]]
        other = self.loose(left, count)
        self.push(right, count)
        self.at_top("CMPN", count)
        self.drop(2 * count + other)
        return CONDITIONS[op]

    def _with_constant(self, op: str, left: Expr, value: int, count: int) -> str:
        condition, inner = ZERO.get((op, value)), core(left)
        spot = self.fixed(left, count)
        if condition is not None and isinstance(inner, Binary) and inner.op == "&" and count <= 2:
            one, mask = (inner.right, inner.left) if isinstance(inner.left, Const) else (inner.left, inner.right)
            if isinstance(mask, Const) and mask.low > 0:
                self.push(one, count)
                self.emit("PRIM", "1,3," + ",".join(f"0x{it:02X}" for it in (mask.low % (1 << 8 * count)).to_bytes(count, "big")))
                self.drop(count)
                return condition
        if condition is not None and left.low >= 0:
            if spot is not None:
                self.at_spot("TESTN", spot, count)
            else:
                other = self.loose(left, count)
                self.at_top("TESTN", count)
                self.drop(count + other)
            return condition
        value %= 1 << 8 * count
        if spot is not None and count <= 2:
            self.at_spot({1: "CMPB", 2: "CMPW"}[count], spot, value)
        elif spot is not None:
            self.number(value, count)
            self.at_spot("CMPN", spot, count)
            self.drop(count)
        else:
            other = self.loose(left, count)
            if count <= 2:
                self.at_top({1: "CMPB", 2: "CMPW"}[count], value)
                self.drop(count + other)
            else:
                self.number(value, count)
                self.at_top("CMPN", count)
                self.drop(2 * count + other)
        return CONDITIONS[op]

