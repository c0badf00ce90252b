"""The calls of the card: takes a call of pycparser, and returns its part of the typed tree."""

from __future__ import annotations

from typing import Callable, Dict, List, Optional

from pycparser import c_ast

from .expressions import Expressions, converted
from .faults import At, Faults, Refused, at_of
from .kinds import INT, U8, U16
from .names import Names
from .tree import Asked, Blocks, Const, Copy, Exit, Expr, Fill, Place, Primitive, Statement

MOST = 255  # bytes of one copy
# Ciphers: the number of the primitive, the bytes of a block and of a key, and whether there is a first block.
CIPHERS = {"multosDESECBEncipher": (4, 8, 8, False), "multosDESECBDecipher": (5, 8, 8, False), "multos3DESECBEncipher": (6, 8, 16, False),
           "multos3DESECBDecipher": (7, 8, 16, False), "multosDESCBCSignature": (8, 8, 8, True), "multos3DESCBCSignature": (9, 8, 16, True),
           "multosAESECBEncipher": (10, 16, 16, False), "multosAESECBDecipher": (11, 16, 16, False), "multosAESCBCSignature": (12, 16, 16, True)}
EXITS = {"Exit": (True, False, False), "ExitSW": (True, True, False), "ExitLa": (True, False, True), "ExitSWLa": (True, True, True),
         "SetSW": (False, True, False), "SetLa": (False, False, True), "SetSWLa": (False, True, True)}
OTHER = ("memcpy", "memset", "memcmp", "multosSetTransactionProtection", "multosMemoryCopy", "multosMemoryEqual", "multosSecureHash", "multosDelegate",
         "multosGetDelegatorAID", "CheckCase")
ALIASES = {f"multos{name}": name for name in (*EXITS, "CheckCase")}
NAMES = frozenset((*CIPHERS, *EXITS, *OTHER, *ALIASES))


def given_to(node: c_ast.FuncCall, count: int, at: At) -> List[c_ast.Node]:
    """Returns the arguments of a call, which has this number of them."""
    found = list(node.args.exprs) if node.args is not None else []
    if len(found) != count:
        raise Refused(at, f"`{node.name.name}` has {count} arguments, not {len(found)}")
    return found


class Library(Expressions):
    """Expressions with the calls of the card."""

    def __init__(self, names: Names, faults: Faults) -> None:
        super().__init__(names, faults)
        names.library = NAMES
        values: Dict[str, Callable[[c_ast.FuncCall, At], Optional[Expr]]] = {
            "CheckCase": self._check_case, "multosCheckCase": self._check_case, "multosMemoryEqual": self._memory_equal,
            "multosGetDelegatorAID": self._delegator, "memcmp": self._memcmp}
        self.library = {name: values.get(name, lambda _node, _at: None) for name in NAMES}

    # ---- arguments

    def address(self, node: c_ast.Node, at: At) -> Place:
        """Returns the place that an argument stands for: an array, or `&` and an object."""
        if isinstance(node, c_ast.UnaryOp) and node.op == "&":
            return self.place(node.expr, at)
        found = self.place(node, at)
        if isinstance(node, c_ast.ID) and not hasattr(found.kind, "element"):
            raise Refused(found.at, f"an address is due: write `&{node.name}`")
        if not hasattr(found.kind, "element"):
            raise Refused(found.at, "an address is due: write `&` before it")
        return found

    def room(self, place: Place, count: int) -> Place:
        """Returns a place that has this number of bytes."""
        if count > place.room:
            raise Refused(place.at, f"{count} bytes are more than the {place.room} of this object")
        return place

    def count(self, node: c_ast.Node, low: int = 1, high: int = MOST, step: int = 1) -> int:
        """Returns a constant number of bytes."""
        found = self.value(node)
        if not isinstance(found, Const):
            raise Refused(found.at, "this number of bytes is a constant" + (": write a loop, or take multosMemoryCopy" if step == 1 else ""))
        if not low <= found.low <= high or found.low % step:
            raise Refused(found.at, f"{found.low} is no number of bytes here: {low} to {high}" + (f", a multiple of {step}" if step > 1 else ""))
        return found.low

    def _written(self, place: Place, is_address: bool = False) -> Place:
        if place.variable.is_const:
            raise Refused(place.at, f"`{place.variable.name}` is `const`")
        self.write(place)
        if self.function is not None and is_address:
            self.function.is_wild = True
        return place

    def _number(self, node: c_ast.Node, size: int) -> Expr:
        return converted(self.value(node), {1: U8, 2: U16}[size])

    # ---- values

    def _check_case(self, node: c_ast.FuncCall, at: At) -> Expr:
        case = self._number(given_to(node, 1, at)[0], 1)
        if isinstance(case, Const) and not 1 <= case.low <= 4:
            raise Refused(case.at, "a case is 1 to 4")
        return Asked(at, INT, 0, 1, [(case, 1)], "1", "EQ", False)

    def _memory_equal(self, node: c_ast.FuncCall, at: At) -> Expr:
        count, first, second = given_to(node, 3, at)
        found = self._length(count)
        places = [self._roomy(it, found, at) for it in (first, second)]
        self.beside(at, [found, *(it for place in places for it, _ in place.indexes)])
        return Asked(at, INT, 0, 1, [(found, 2), *places], "5", "EQ", False)

    def _length(self, node: c_ast.Node) -> Expr:
        found = self._number(node, 2)
        if isinstance(found, Const) and not 1 <= found.low <= MOST:
            raise Refused(found.at, f"{found.low} is no number of bytes here: 1 to {MOST}")
        return found

    def _roomy(self, node: c_ast.Node, count: Expr, at: At) -> Place:
        place = self.address(node, at)
        return self.room(place, count.low) if isinstance(count, Const) else place

    def _delegator(self, node: c_ast.FuncCall, at: At) -> Expr:
        place = self._written(self.room(self.address(given_to(node, 1, at)[0], at), 17), True)
        return Asked(at, INT, 0, 1, [place], "8", "NE", True)

    def _memcmp(self, node: c_ast.FuncCall, at: At) -> Expr:
        raise Refused(at, "`memcmp` stands against 0 alone: `memcmp(x, y, n) == 0`")

    def blocks(self, node: c_ast.FuncCall, op: str, at: At) -> Expr:
        """Returns `memcmp` against 0."""
        first, second, count = given_to(node, 3, at_of(node, at))
        number = self.count(count)
        places = [self.room(self.address(it, at), number) for it in (first, second)]
        self.beside(at, [it for place in places for it, _ in place.indexes])
        return Blocks(at, INT, 0, 1, op, places[0], places[1], number)

    # ---- statements

    def statement(self, node: c_ast.FuncCall, at: At) -> Optional[Statement]:
        """Returns what a call of the card is as a statement, or None if it is a call of a function or one with a result."""
        name = node.name.name if isinstance(node.name, c_ast.ID) else ""
        name = ALIASES.get(name, name)
        if name in EXITS:
            return self._exit(node, at, *EXITS[name])
        if name in CIPHERS:
            return self._cipher(node, at, *CIPHERS[name])
        made = {"memcpy": self._memcpy, "memset": self._memset, "multosSetTransactionProtection": self._protection,
                "multosMemoryCopy": self._memory_copy, "multosSecureHash": self._hash, "multosDelegate": self._delegate}.get(name)
        return made(node, at) if made is not None else None

    def _exit(self, node: c_ast.FuncCall, at: At, is_exit: bool, has_status: bool, has_length: bool) -> Statement:
        found = []
        for it in given_to(node, has_status + has_length, at):
            value = self.value(it)
            if value.low < 0:
                raise Refused(value.at, "this may be negative: compare before you subtract, or cast")
            found.append(converted(value, U16))
        self.beside(at, found)
        if self.function is not None:
            self.function.exits = self.function.exits or is_exit
            self.function.writes = self.function.writes or not is_exit
        return Exit(at, is_exit, found[0] if has_status else None, found[-1] if has_length else None)

    def _memcpy(self, node: c_ast.FuncCall, at: At) -> Statement:
        to, source, count = given_to(node, 3, at)
        number = self.count(count)
        target, origin = self.room(self.address(to, at), number), self.room(self.address(source, at), number)
        self.beside(at, [it for place in (target, origin) for it, _ in place.indexes])
        return Copy(at, self._written(target), origin, number)

    def _memset(self, node: c_ast.FuncCall, at: At) -> Statement:
        to, byte, count = given_to(node, 3, at)
        value, number = self.value(byte), self.count(count)
        if not isinstance(value, Const) or value.low not in (0, 255):
            raise Refused(value.at, "`memset` is to 0 or 255: copy other bytes from an array")
        return Fill(at, self._written(self.room(self.address(to, at), number)), value.low, number)

    def _protection(self, node: c_ast.FuncCall, at: At) -> Statement:
        mode = self.value(given_to(node, 1, at)[0])
        if not isinstance(mode, Const) or not 0 <= mode.low <= 3:
            raise Refused(mode.at, "a mode of protection is a constant, 0 to 3")
        self._effect()
        return Primitive(at, [], f"3,{mode.low}")

    def _effect(self, is_wild: bool = False) -> None:
        if self.function is not None:
            self.function.writes = True
            self.function.is_wild = self.function.is_wild or is_wild

    def _memory_copy(self, node: c_ast.FuncCall, at: At) -> Statement:
        count, to, source = given_to(node, 3, at)
        found = self._length(count)
        target, origin = self._roomy(to, found, at), self._roomy(source, found, at)
        self.beside(at, [found, *(it for place in (target, origin) for it, _ in place.indexes)])
        return Primitive(at, [(found, 2), self._written(target, True), origin], "6")

    def _hash(self, node: c_ast.FuncCall, at: At) -> Statement:
        count, source, to = given_to(node, 3, at)
        found = self._length(count)
        origin, target = self._roomy(source, found, at), self.room(self.address(to, at), 20)
        self.beside(at, [found, *(it for place in (target, origin) for it, _ in place.indexes)])
        return Primitive(at, [(found, 2), origin, self._written(target, True)], "9")

    def _cipher(self, node: c_ast.FuncCall, at: At, number: int, block: int, key: int, has_start: bool) -> Statement:
        count, *places = given_to(node, 5 if has_start else 4, at)
        size = self.count(count, block, MOST // block * block, block)
        rooms = [block, size, block, key] if has_start else [size, size, key]
        found = [self.room(self.address(it, at), room) for it, room in zip(places, rooms)]
        self.beside(at, [it for place in found for it, _ in place.indexes])
        self._written(found[-2], True)
        return Primitive(at, list(found), f"{number},{size}")

    def _delegate(self, node: c_ast.FuncCall, at: At) -> Statement:
        place = self.address(given_to(node, 1, at)[0], at)
        self._effect()
        if self.function is not None:
            self.function.exits = True
        return Primitive(at, [place], "7")

