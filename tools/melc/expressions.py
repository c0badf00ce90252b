"""Types and ranges: takes an expression of pycparser, and returns the typed tree of it, with the range of each part.

Types and conversions are those of C with an `int` of 32 bits. What C does not define, or what needs the sign of a number, is refused unless
the ranges show that it does not come.
"""

from __future__ import annotations

from typing import Callable, Dict, List, Optional, Tuple

from pycparser import c_ast

from .faults import At, Faults, Refused, at_of
from .kinds import INT, SIZE, U32, VOID, Array, Number, Record
from .names import Names
from .tree import (Asked, Binary, Blocks, Called, Choice, Compare, Const, Convert, Expr, Function, Load, Logic, Place, Unary, calls_in)

FLIPPED = {"==": "==", "!=": "!=", "<": ">", "<=": ">=", ">": "<", ">=": "<="}
TURNED = {"==": "!=", "!=": "==", "<": ">=", "<=": ">", ">": "<=", ">=": "<"}
ESCAPES = {"n": 10, "t": 9, "r": 13, "0": 0, "\\": 92, "'": 39, '"': 34, "a": 7, "b": 8, "f": 12, "v": 11}
INSIDE = "is a statement of its own: write it before"


def promoted(expr: Expr) -> Expr:
    """Returns an expression after the promotion to `int` of C."""
    return retyped(expr, INT) if expr.type.is_object and expr.type is not U32 else expr


def retyped(expr: Expr, kind: Number) -> Expr:
    """Returns an expression in a type that has all of its values."""
    if expr.type is kind:
        return expr
    if isinstance(expr, Const):
        return Const(expr.at, kind, expr.low, expr.high)
    return Convert(expr.at, kind, expr.low, expr.high, expr)


def converted(expr: Expr, kind: Number) -> Expr:
    """Returns an expression converted to a type of objects or `unsigned`: modulo its size."""
    if kind.low <= expr.low and expr.high <= kind.high:
        return retyped(expr, kind)
    if kind is SIZE:
        raise Refused(expr.at, "this may be negative beside a `sizeof`: cast the `sizeof` to WORD")
    if expr.value is not None:
        low = high = expr.value % (kind.high + 1)
        if isinstance(expr, Const):
            return Const(expr.at, kind, low, high)
        return Convert(expr.at, kind, low, high, expr)
    return Convert(expr.at, kind, kind.low, kind.high, expr)


def decided(op: str, left: Expr, right: Expr) -> Optional[bool]:
    """Returns what a comparison is by its ranges alone, or None if they leave it open."""
    if op in (">", ">="):
        return decided(FLIPPED[op], right, left)
    if op == "!=":
        found = decided("==", left, right)
        return None if found is None else not found
    if op == "==":
        if left.value is not None and left.value == right.value:
            return True
        return False if left.high < right.low or right.high < left.low else None
    if op == "<":
        return True if left.high < right.low else False if left.low >= right.high else None
    return True if left.high <= right.low else False if left.low > right.high else None


class Expressions:
    """Expressions of a file; `library` is what a call of the card becomes."""

    def __init__(self, names: Names, faults: Faults) -> None:
        self.names, self.faults = names, faults
        self.function: Optional[Function] = None
        # What stands beside a call without an order in C: looked at when all functions are known.
        self.orders: List[Tuple[At, List[Expr]]] = []
        self.library: Dict[str, Callable[[c_ast.FuncCall, At], Optional[Expr]]] = {}
        self.is_measured = False
        names.constant = self.constant

    # ---- constants

    def constant(self, node: c_ast.Node) -> int:
        """Returns the value of a constant expression."""
        found = self.value(node)
        if not isinstance(found, Const):
            raise Refused(at_of(node, found.at), "this is no constant")
        return found.low

    def _constant(self, node: c_ast.Constant, at: At) -> Expr:
        if node.type == "char":
            return self._character(node.value, at)
        text = node.value.lower()
        digits = text.rstrip("ul")
        if "int" not in node.type or text.startswith("0b"):
            raise Refused(at, f"`{node.value}` is no whole number of C")
        if "l" in text[len(digits):]:
            raise Refused(at, "there is no `long`: write the number without L")
        is_decimal = not digits.startswith("0")
        value = int(digits, 16) if digits.startswith("0x") else int(digits, 10 if is_decimal else 8)
        is_unsigned = text.endswith("u") or not is_decimal and value > INT.high
        if value > U32.high:
            raise Refused(at, f"`{node.value}` has more than 32 bits")
        if value > INT.high and not is_unsigned:
            raise Refused(at, f"`{node.value}` is a `long` in C: write it with U, or in hexadecimal")
        return Const(at, U32 if is_unsigned else INT, value, value)

    def _character(self, text: str, at: At) -> Expr:
        found = text_bytes(text[1:-1], at)
        if len(found) != 1 or not text.startswith("'"):
            raise Refused(at, f"{text} is no single character")
        if found[0] > 127:
            raise Refused(at, f"{text} is negative in C: write its number")
        return Const(at, INT, found[0], found[0])

    # ---- places

    def place(self, node: c_ast.Node, at: At = At("", 0)) -> Place:
        """Returns the place of an expression that is an object."""
        at = at_of(node, at)
        if isinstance(node, c_ast.ID):
            found = self.names.variable(node.name)
            if found is None:
                raise Refused(at, f"`{node.name}` is no variable" if self.names.is_taken(node.name) else f"`{node.name}` is not declared")
            return Place(found, 0, [], found.kind, at, found.kind.size)
        if isinstance(node, c_ast.ArrayRef):
            return self._element(node, at)
        if isinstance(node, c_ast.StructRef):
            return self._member(node, at)
        if isinstance(node, c_ast.UnaryOp) and node.op == "*":
            raise Refused(at, "there are no pointers: take an array and an index")
        if isinstance(node, c_ast.CompoundLiteral):
            raise Refused(at, "there are no objects without a name: declare a local")
        raise Refused(at, "this is no object in memory")

    def _element(self, node: c_ast.ArrayRef, at: At) -> Place:
        whole = self.place(node.name, at)
        if not isinstance(whole.kind, Array):
            raise Refused(at, "this is no array")
        index, element = self.value(node.subscript), whole.kind.element
        if index.low < 0:
            raise Refused(index.at, "this index may be negative: mask it or compare it before you subtract")
        if isinstance(index, Const):
            if index.low >= whole.kind.count:
                raise Refused(index.at, f"this index is {index.low}, and the array has {whole.kind.count} elements")
            offset = index.low * element.size
            return Place(whole.variable, whole.offset + offset, whole.indexes, element, at, whole.kind.size - offset)
        return Place(whole.variable, whole.offset, [*whole.indexes, (index, element.size)], element, at, whole.kind.size)

    def _member(self, node: c_ast.StructRef, at: At) -> Place:
        if node.type == "->":
            raise Refused(at, "there are no pointers: write `.` and the name of the struct")
        whole = self.place(node.name, at)
        if not isinstance(whole.kind, Record):
            raise Refused(at, "this is no struct and no union")
        if node.field.name not in whole.kind.members:
            raise Refused(at, f"there is no member `{node.field.name}`")
        offset, kind = whole.kind.members[node.field.name]
        return Place(whole.variable, whole.offset + offset, whole.indexes, kind, at, kind.size)

    def target(self, node: c_ast.Node) -> Place:
        """Returns a place that is written."""
        found = self.place(node)
        if found.variable.is_const:
            raise Refused(found.at, f"`{found.variable.name}` is `const`")
        self.write(found)
        return found

    def write(self, place: Place) -> None:
        """Notes that a place is written."""
        place.variable.is_written = True
        if self.function is not None:
            self.function.writes = self.function.writes or place.variable.memory != "local"
            self.function.is_wild = self.function.is_wild or not place.is_fixed

    # ---- values

    def value(self, node: c_ast.Node) -> Expr:
        """Returns an expression that is a number."""
        found = self.any_value(node)
        if found.type is VOID:
            raise Refused(found.at, "this call has no result")
        return found

    def any_value(self, node: c_ast.Node) -> Expr:
        """Returns an expression that is a number, or a call without a result."""
        at = at_of(node)
        if isinstance(node, c_ast.Constant):
            if node.type == "string":
                raise Refused(at, "a string is an initial value alone")
            return self._constant(node, at)
        if isinstance(node, c_ast.ID) and self.names.variable(node.name) is None and node.name in self.names.constants:
            found = self.names.constants[node.name]
            return Const(at, INT, found, found)
        if isinstance(node, (c_ast.ID, c_ast.ArrayRef, c_ast.StructRef)):
            place = self.place(node)
            if not isinstance(place.kind, Number):
                raise Refused(at, "an array or a struct is no number")
            return Load(at, place.kind, place.kind.low, place.kind.high, place)
        if isinstance(node, c_ast.UnaryOp):
            return self._unary(node, at)
        if isinstance(node, c_ast.BinaryOp):
            return self._binary(node, at)
        if isinstance(node, c_ast.TernaryOp):
            return self._choice(node, at)
        if isinstance(node, c_ast.Cast):
            return self._cast(node, at)
        if isinstance(node, c_ast.FuncCall):
            return self._call(node, at)
        if isinstance(node, c_ast.Assignment):
            raise Refused(at, f"an assignment {INSIDE}" + (" (or was `==` meant?)" if node.op == "=" else ""))
        if isinstance(node, c_ast.ExprList):
            raise Refused(at, "`,` stands in a `for` alone: write two statements")
        if isinstance(node, (c_ast.InitList, c_ast.NamedInitializer)):
            raise Refused(at, "braces are an initial value of an array or a struct alone")
        self.place(node, at)
        raise Refused(at, "this expression is not taken")

    def _unary(self, node: c_ast.UnaryOp, at: At) -> Expr:
        op = node.op
        if op in ("++", "--", "p++", "p--"):
            raise Refused(at, f"`{op.replace('p', '')}` {INSIDE}")
        if op == "&":
            raise Refused(at, "an address is an argument of a call of the card alone")
        if op == "*":
            raise Refused(at, "there are no pointers: take an array and an index")
        if op == "sizeof":
            return self._size(node.expr, at)
        if op == "!":
            return self.negated(self.condition(node.expr), at)
        if op not in ("-", "+", "~"):
            raise Refused(at, f"`{op}` is not taken")
        return self.unary(op, self.value(node.expr), at)

    def unary(self, op: str, operand: Expr, at: At) -> Expr:
        """Returns `+`, `-` or `~` of a number."""
        operand = promoted(operand)
        if op == "+":
            return operand
        low, high = (-operand.high, -operand.low) if op == "-" else (-operand.high - 1, -operand.low - 1)
        return self._ranged(Unary, at, operand.type, low, high, op, operand)

    def _ranged(self, make: Callable[..., Expr], at: At, kind: Number, low: int, high: int, *more: object) -> Expr:
        """Returns an expression of an exact range, wrapped as its type does, and as a constant if its operands are."""
        if kind is U32 and (low < 0 or high > U32.high):
            low, high = (low % (1 << 32), high % (1 << 32)) if low >> 32 == high >> 32 else (0, U32.high)
        if low < kind.low or high > kind.high:
            if kind is SIZE:
                raise Refused(at, "a `sizeof` has 64 bits on a PC, and this leaves 32: cast it to WORD or DWORD")
            raise Refused(at, f"this may be {high if high > kind.high else low}, which is no `int`: cast an operand to DWORD")
        operands = [it for it in more if isinstance(it, Expr)]
        if low == high and all(isinstance(it, Const) for it in operands):
            return Const(at, kind, low, high)
        return make(at, kind, low, high, *more)

    def _size(self, node: c_ast.Node, at: At) -> Expr:
        if isinstance(node, c_ast.Typename):
            size = self.names.object(node, at).size
        else:
            # What is measured is not evaluated, so calls in it are none.
            noted, orders = self.function, len(self.orders)
            self.function = None
            was, self.is_measured = self.is_measured, True
            try:
                try:
                    size = self.place(node).kind.size
                except Refused:
                    size = self.value(node).type.size
            finally:
                self.function, self.is_measured = noted, was
                del self.orders[orders:]
        return Const(at, SIZE, size, size)

    def _cast(self, node: c_ast.Cast, at: At) -> Expr:
        kind = self.names.kind(node.to_type, at)
        operand = self.any_value(node.expr)
        if not isinstance(kind, Number) or kind is VOID:
            raise Refused(at, "a cast is to BYTE, WORD or DWORD")
        if operand.type is VOID:
            raise Refused(at, "this call has no result")
        return converted(operand, kind)

    def joined(self, left: Expr, right: Expr) -> Tuple[Expr, Expr]:
        """Returns two operands in their common type."""
        left, right = promoted(left), promoted(right)
        kind = SIZE if SIZE in (left.type, right.type) else U32 if U32 in (left.type, right.type) else INT
        return (left, right) if kind is INT else (converted(left, kind), converted(right, kind))

    def _binary(self, node: c_ast.BinaryOp, at: At) -> Expr:
        op = node.op
        if op in ("&&", "||"):
            return self.logic(op, self.condition(node.left), self.condition(node.right), at)
        if op in FLIPPED:
            blocks = self._blocks(node, at)
            return blocks if blocks is not None else self.compare(op, self.value(node.left), self.value(node.right), at)
        return self.binary(op, self.value(node.left), self.value(node.right), at)

    def beside(self, at: At, operands: List[Expr]) -> None:
        """Notes expressions among which C leaves the order open."""
        if sum(not isinstance(it, Const) for it in operands) > 1 and any(calls_in(it) for it in operands):
            self.orders.append((at, operands))

    def binary(self, op: str, left: Expr, right: Expr, at: At) -> Expr:
        """Returns an operation of two numbers."""
        self.beside(at, [left, right])
        if op in ("<<", ">>"):
            return self._shift(op, promoted(left), promoted(right), at)
        left, right = self.joined(left, right)
        kind = left.type
        if op in ("+", "-"):
            low, high = (left.low + right.low, left.high + right.high) if op == "+" else (left.low - right.high, left.high - right.low)
            return self._ranged(Binary, at, kind, low, high, op, left, right)
        if op in ("&", "|", "^"):
            return self._bits(op, left, right, at)
        if op == "*":
            if isinstance(left, Const):
                left, right = right, left
            if not isinstance(right, Const):
                raise Refused(at, "a product of two variables has no instruction: write a loop of additions")
            ends = sorted((left.low * right.low, left.high * right.low))
            return self._ranged(Binary, at, kind, ends[0], ends[1], op, left, right)
        if op in ("/", "%"):
            return self._quotient(op, left, right, at)
        raise Refused(at, f"`{op}` is not taken")

    def _bits(self, op: str, left: Expr, right: Expr, at: At) -> Expr:
        kind = left.type
        if isinstance(left, Const) and isinstance(right, Const):
            value = {"&": left.low & right.low, "|": left.low | right.low, "^": left.low ^ right.low}[op]
            return Const(at, kind, value, value)
        if op == "&":
            highs = [it.high for it in (left, right) if it.low >= 0]
            low, high = (0, min(highs)) if highs else (kind.low, kind.high)
        elif left.low >= 0 and right.low >= 0:
            high = (1 << max(left.high.bit_length(), right.high.bit_length())) - 1
            low = max(left.low, right.low) if op == "|" else 0
        else:
            low, high = kind.low, kind.high
        return Binary(at, kind, low, high, op, left, right)

    def _shift(self, op: str, left: Expr, right: Expr, at: At) -> Expr:
        if not isinstance(right, Const):
            raise Refused(right.at, "a shift has a constant: write a loop")
        if not 0 <= right.low <= 31:
            raise Refused(right.at, f"a shift is by 0 to 31, not by {right.low}")
        if left.low < 0:
            raise Refused(left.at, "this may be negative, and C does not define its shift: compare before you subtract, or cast")
        if right.low == 0:
            return left
        if op == ">>":
            return self._ranged(Binary, at, left.type, left.low >> right.low, left.high >> right.low, op, left, right)
        return self._ranged(Binary, at, left.type, left.low << right.low, left.high << right.low, op, left, right)

    def _quotient(self, op: str, left: Expr, right: Expr, at: At) -> Expr:
        if not isinstance(right, Const) or right.low <= 0 or right.low & right.low - 1:
            raise Refused(at, f"`{op}` is by a constant power of two: write a loop of subtractions")
        if left.low < 0:
            raise Refused(left.at, f"this may be negative, and its sign counts in `{op}`: compare before you subtract, or cast")
        if op == "/":
            return self._shift(">>", left, Const(right.at, INT, right.low.bit_length() - 1, right.low.bit_length() - 1), at)
        if left.high < right.low:
            return left
        found = self._bits("&", left, Const(right.at, left.type, right.low - 1, right.low - 1), at)
        return found

    def compare(self, op: str, left: Expr, right: Expr, at: At) -> Expr:
        """Returns a comparison of two numbers."""
        self.beside(at, [left, right])
        left, right = self.joined(left, right)
        found = decided(op, left, right)
        if found is not None:
            if isinstance(left, Const) and isinstance(right, Const):
                return Const(at, INT, int(found), int(found))
            if not self.is_measured:
                self.faults.warning(at, f"this is always {'true' if found else 'false'}, by the ranges of its operands")
            return Compare(at, INT, int(found), int(found), op, left, right)
        if op not in ("==", "!=") and left.type is INT:
            for it in (left, right):
                if it.low < 0:
                    raise Refused(it.at, f"this may be negative, and its sign counts in `{op}`: compare before you subtract, or cast")
        return Compare(at, INT, 0, 1, op, left, right)

    # ---- conditions

    def condition(self, node: c_ast.Node) -> Expr:
        """Returns an expression that is 0 or 1: whether a number is not 0."""
        if isinstance(node, c_ast.FuncCall) and isinstance(node.name, c_ast.ID) and node.name.name == "memcmp":
            return self.blocks(node, "!=", at_of(node))
        found = self.value(node)
        if is_truth(found):
            return found
        if isinstance(found, Const):
            return Const(found.at, INT, int(found.low != 0), int(found.low != 0))
        return self.compare("!=", found, Const(found.at, INT, 0, 0), found.at)

    def negated(self, found: Expr, at: At) -> Expr:
        """Returns `!` of a condition."""
        if isinstance(found, Const):
            return Const(at, INT, 1 - found.low, 1 - found.low)
        if isinstance(found, Compare):
            return Compare(at, INT, 1 - found.high, 1 - found.low, TURNED[found.op], found.left, found.right)
        if isinstance(found, Blocks):
            return Blocks(at, INT, 0, 1, TURNED[found.op], found.left, found.right, found.count)
        return Logic(at, INT, 1 - found.high, 1 - found.low, "!", [found])

    def logic(self, op: str, left: Expr, right: Expr, at: At) -> Expr:
        """Returns `&&` or `||` of two conditions."""
        if isinstance(left, Const):
            return left if left.low == (op == "||") else right
        low, high = (left.low & right.low, left.high & right.high) if op == "&&" else (left.low | right.low, left.high | right.high)
        return Logic(at, INT, low, high, op, [left, right])

    def _choice(self, node: c_ast.TernaryOp, at: At) -> Expr:
        condition = self.condition(node.cond)
        yes, no = self.joined(self.value(node.iftrue), self.value(node.iffalse))
        if isinstance(condition, Const):
            return yes if condition.low else no
        return Choice(at, yes.type, min(yes.low, no.low), max(yes.high, no.high), condition, yes, no)

    def _blocks(self, node: c_ast.BinaryOp, at: At) -> Optional[Expr]:
        """Returns `memcmp` against 0, or None if it is another comparison."""
        for call, other, op in ((node.left, node.right, node.op), (node.right, node.left, FLIPPED[node.op])):
            if isinstance(call, c_ast.FuncCall) and isinstance(call.name, c_ast.ID) and call.name.name == "memcmp":
                zero = self.value(other)
                if not isinstance(zero, Const) or zero.low:
                    raise Refused(at, "`memcmp` is compared with 0 alone")
                return self.blocks(call, op, at)
        return None

    def blocks(self, node: c_ast.FuncCall, op: str, at: At) -> Expr:
        """Returns `memcmp` against 0; the library replaces this."""
        raise NotImplementedError

    # ---- calls

    def _call(self, node: c_ast.FuncCall, at: At) -> Expr:
        if not isinstance(node.name, c_ast.ID):
            raise Refused(at, "a function is called by its name")
        name = node.name.name
        if name in self.library:
            found = self.library[name](node, at)
            if found is None:
                raise Refused(at, f"`{name}` {INSIDE.replace(': write it before', '')}")
            return found
        return self.called(node, at)

    def called(self, node: c_ast.FuncCall, at: At) -> Expr:
        """Returns a call of a function of the file."""
        name = node.name.name
        function = self.names.functions.get(name)
        if function is None:
            raise Refused(at, f"`{name}` is no function" if self.names.is_taken(name) else f"`{name}` is not declared: declare it above, or it is none of "
                          "this card")
        given = node.args.exprs if node.args is not None else []
        if len(given) != len(function.kinds):
            raise Refused(at, f"`{name}` has {len(function.kinds)} parameters, not {len(given)}")
        if function.name == "main":
            raise Refused(at, "`main` is not called")
        values = [converted(self.value(it), kind) for it, kind in zip(given, function.kinds)]
        self.beside(at, values)
        if self.function is not None:
            self.function.calls.append((function, at))
        return Called(at, function.result, function.result.low, function.result.high, function, values)


def is_truth(expr: Expr) -> bool:
    """Whether an expression is 0 or 1 by its form."""
    return isinstance(expr, (Compare, Logic, Blocks, Asked))


def text_bytes(text: str, at: At) -> bytes:
    """Returns the bytes of a string or a character, without its quotes."""
    found, place = bytearray(), 0
    while place < len(text):
        if text[place] != "\\":
            found += text[place].encode("utf-8", "surrogateescape")
            place += 1
            continue
        place += 1
        if text[place] == "x":
            end = place + 1
            while end < len(text) and text[end] in "0123456789abcdefABCDEF":
                end += 1
            value = int(text[place + 1:end] or "0", 16)
        elif text[place] in "01234567":
            end = place
            while end < min(len(text), place + 3) and text[end] in "01234567":
                end += 1
            value = int(text[place:end], 8)
        elif text[place] in ESCAPES:
            value, end = ESCAPES[text[place]], place + 1
        else:
            raise Refused(at, f"`\\{text[place]}` is no character")
        if value > 255:
            raise Refused(at, "a character has one byte")
        found.append(value)
        place = end
    return bytes(found)

