"""Expressions over the names of a draft: what a writer hovers over, watches, and puts as a condition on a breakpoint.

An expression has names of bytes (`tries`, `amount+1`, `balance.size`), of numbers and labels, operands (`SB[2]`, `PB[0],2`), the registers,
the flags `C` and `Z`, and numbers, joined by `+ - * / % & | ^ << >> ~`, comparisons, and `and or not` or `&& || !`. The bytes of a name are a
number, big endian and unsigned, as they are for the machine.
"""

from __future__ import annotations

import ast
import operator
import re
import warnings
from dataclasses import dataclass
from typing import Callable, Dict, List, Optional, Union

from desktexts import HEADER, REGISTERS, Section, State

OPERAND = re.compile(r"\b(SB|ST|DB|LB|DT|PB|PT)\[\s*(-?\d+)\s*\](?:,(\d+))?")
TOKEN = re.compile(r"0[xX][0-9A-Fa-f]+|\d+|[A-Za-z_]\w*")
LONGEST, DEEPEST, WIDEST = 1000, 50, 4096  # characters of an expression, levels of it, and bits of a number
# The form in which a name is no word of Python's, which reads the expression.
MARK = "name_"
BINARY: Dict[type, Callable] = {
    ast.Add: operator.add, ast.Sub: operator.sub, ast.Mult: operator.mul, ast.BitAnd: operator.and_, ast.BitOr: operator.or_,
    ast.BitXor: operator.xor, ast.LShift: operator.lshift, ast.RShift: operator.rshift, ast.Div: operator.floordiv,
    ast.FloorDiv: operator.floordiv, ast.Mod: operator.mod}
COMPARED: Dict[type, Callable] = {ast.Eq: operator.eq, ast.NotEq: operator.ne, ast.Lt: operator.lt, ast.LtE: operator.le, ast.Gt: operator.gt,
                                  ast.GtE: operator.ge}
UNARY: Dict[type, Callable] = {ast.USub: operator.neg, ast.Invert: operator.invert, ast.Not: lambda it: int(not it)}


class BadExpression(Exception):
    """Why an expression has no value."""


@dataclass
class Bytes:
    """Bytes of a frame: their address and content."""

    address: int
    content: bytes

    def __int__(self) -> int:
        return int.from_bytes(self.content, "big")


Value = Union[int, Bytes]


class Names:
    """The names that code in a frame reads: those of its section, of the header, the registers and the flags."""

    def __init__(self, state: State, depth: int, section: Optional[Section]) -> None:
        self.state, self.depth, self.section = state, depth, section

    def bytes_at(self, address: int, count: int) -> Bytes:
        """Returns bytes by address.

        # Errors

        BadExpression, if they are not whole in a segment.
        """
        content = self.state.read(self.depth, address, count)
        if content is None:
            raise BadExpression(f"{count} bytes at {address:04X} are not whole in a segment")
        return Bytes(address, content)

    def place(self, name: str) -> Optional[Bytes]:
        """Returns the bytes of a name, or None if it names no bytes."""
        found = self.section.names.get(name) if self.section else None
        if found is not None:
            return self.bytes_at(self.state.register(self.depth, found.register) + found.offset, found.size)
        field = next((it for it in HEADER if it[0] == name), None)
        return self.bytes_at(self.state.register(self.depth, "PT") + field[1], field[2]) if field else None

    def value(self, name: str) -> Value:
        """Returns what a name stands for.

        # Errors

        BadExpression, if there is no such name.
        """
        found = self.place(name)
        if found is not None:
            return found
        if name in REGISTERS:
            return self.state.register(self.depth, name)
        if name in ("C", "Z"):
            frame = self.state.frames[self.depth - 1]
            return frame.c if name == "C" else frame.z
        if self.section and name in self.section.numbers:
            return int(self.section.numbers[name], 0) & 0xFFFF
        if self.section and name in self.section.labels:
            return self.section.labels[name]
        raise BadExpression(f"there is no name {name} here")


def parsed(text: str) -> ast.expr:
    """Returns an expression as Python reads it, with its operands as slices and its names marked.

    # Errors

    BadExpression, if it is none.
    """
    if len(text) > LONGEST:
        raise BadExpression(f"an expression has at most {LONGEST} characters")
    marked = OPERAND.sub(lambda it: f"{it.group(1)}[{it.group(2)}:{it.group(3) or 1}]", text.strip())
    marked = re.sub(r"!(?!=)", " not ", marked.replace("&&", " and ").replace("||", " or "))
    marked = TOKEN.sub(lambda it: it.group() if it.group()[0].isdigit() or it.group() in ("and", "or", "not") else MARK + it.group(), marked)
    # A decimal number may have leading zeros.
    marked = re.sub(r"(?<![\w.])0+(?=\d)", "", marked)
    try:
        with warnings.catch_warnings():
            warnings.simplefilter("ignore")
            found = ast.parse(marked, mode="eval").body
    except (SyntaxError, ValueError):
        raise BadExpression(f"{text.strip() or 'nothing'} is no expression") from None
    except (RecursionError, MemoryError):
        raise BadExpression(f"an expression is at most {DEEPEST} levels deep") from None
    level: List[ast.AST] = [found]
    for _ in range(DEEPEST):
        level = [part for it in level for part in ast.iter_child_nodes(it)]
        if not level:
            return found
    raise BadExpression(f"an expression is at most {DEEPEST} levels deep")


def value_of(text: str, names: Names) -> Value:
    """Returns the value of an expression.

    # Errors

    BadExpression, if it is no expression, or names what is not there.
    """
    try:
        return _value(parsed(text), names)
    except ZeroDivisionError:
        raise BadExpression("a number is divided by zero") from None
    except ValueError:
        raise BadExpression("a number is shifted by less than zero") from None
    except (OverflowError, MemoryError):
        raise BadExpression(f"a number has at most {WIDEST} bits") from None


def _name(node: ast.expr) -> Optional[str]:
    return node.id[len(MARK):] if isinstance(node, ast.Name) else None


def _operand(node: ast.Subscript, names: Names) -> Bytes:
    register, cut = _name(node.value), node.slice
    if register not in REGISTERS or not isinstance(cut, ast.Slice) or cut.lower is None or cut.upper is None:
        raise BadExpression("an operand is REG[offset], or REG[offset],n")
    offset, count = int(_value(cut.lower, names)), int(_value(cut.upper, names))
    return names.bytes_at(names.state.register(names.depth, register) + offset, count)


def _sum(node: ast.BinOp, names: Names) -> Optional[Bytes]:
    """The bytes of `name+K`, which has no blank, as in a draft: K places further."""
    name = _name(node.left)
    if not (isinstance(node.op, ast.Add) and name and isinstance(node.right, ast.Constant) and isinstance(node.right.value, int)) or \
            node.right.col_offset != (node.left.end_col_offset or 0) + 1:
        return None
    found, further = names.place(name), node.right.value
    return Bytes(found.address + further, found.content[further:]) if found is not None and further < len(found.content) else None


def _value(node: ast.expr, names: Names) -> Value:
    if isinstance(node, ast.Constant) and isinstance(node.value, int):
        return node.value
    if isinstance(node, ast.Name):
        return names.value(node.id[len(MARK):])
    if isinstance(node, ast.Attribute):
        found = names.place(_name(node.value) or "")
        if found is None or node.attr != MARK + "size":
            raise BadExpression("a name of bytes has .size, and nothing else")
        return len(found.content)
    if isinstance(node, ast.Subscript):
        return _operand(node, names)
    if isinstance(node, ast.BinOp):
        if type(node.op) not in BINARY:
            raise BadExpression("there is no such operator")
        found = _sum(node, names)
        return found if found is not None else _calculated(node.op, int(_value(node.left, names)), int(_value(node.right, names)))
    return _truth(node, names)


def _calculated(op: ast.operator, left: int, right: int) -> int:
    if isinstance(op, ast.LShift) and right > WIDEST:
        raise OverflowError
    found: int = BINARY[type(op)](left, right)
    if found.bit_length() > WIDEST:
        raise OverflowError
    return found


def _truth(node: ast.expr, names: Names) -> Value:
    if isinstance(node, ast.UnaryOp) and type(node.op) in UNARY:
        return UNARY[type(node.op)](int(_value(node.operand, names)))
    if isinstance(node, ast.BoolOp):
        held = (int(_value(it, names)) != 0 for it in node.values)
        return int(all(held) if isinstance(node.op, ast.And) else any(held))
    if isinstance(node, ast.Compare) and all(type(it) in COMPARED for it in node.ops):
        parts = [int(_value(it, names)) for it in (node.left, *node.comparators)]
        return int(all(COMPARED[type(op)](parts[at], parts[at + 1]) for at, op in enumerate(node.ops)))
    raise BadExpression("this is no part of an expression")
