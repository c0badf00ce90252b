"""The typed tree: what the analysis makes of a program, and the lowering reads.

An expression has the type that C gives it, and a range: the least and the greatest value that it can have. A place is an object, or a part of
one, in memory: its variable, a constant offset, and an index with a size for each index that is no constant.
"""

from __future__ import annotations

from dataclasses import dataclass, field
from typing import Dict, List, Optional, Tuple

from .faults import At
from .kinds import INT, Kind, Number


@dataclass(eq=False)
class Variable:
    """A variable: its class is `static`, `session`, `public`, `header` or `local`; `offset` is its place in its segment."""

    name: str
    kind: Kind
    memory: str
    at: At
    offset: int = 0
    is_const: bool = False
    initial: Optional[bytes] = None
    is_written: bool = False


@dataclass
class Place:
    """An object in memory; `room` are the bytes from its beginning to the end of the array or object that an address of it stands for."""

    variable: Variable
    offset: int
    indexes: List[Tuple["Expr", int]]
    kind: Kind
    at: At
    room: int

    @property
    def is_fixed(self) -> bool:
        """Whether its address is a constant."""
        return not self.indexes


@dataclass
class Expr:
    """An expression of a type whose value is from `low` to `high`."""

    at: At
    type: Number
    low: int
    high: int

    @property
    def value(self) -> Optional[int]:
        """The value, if it is one alone."""
        return self.low if self.low == self.high else None

    def parts(self) -> List["Expr"]:
        """Returns the operands."""
        return []


@dataclass
class Const(Expr):
    """A constant; `is_literal` unless a range made it one."""


@dataclass
class Load(Expr):
    """What a place holds."""

    place: Place

    def parts(self) -> List[Expr]:
        return [it for it, _ in self.place.indexes]


@dataclass
class Unary(Expr):
    """`-` or `~`."""

    op: str
    operand: Expr

    def parts(self) -> List[Expr]:
        return [self.operand]


@dataclass
class Binary(Expr):
    """`+ - * & | ^ << >>`; the second operand of `*`, `<<` and `>>` is a constant."""

    op: str
    left: Expr
    right: Expr

    def parts(self) -> List[Expr]:
        return [self.left, self.right]


@dataclass
class Convert(Expr):
    """A value taken modulo the size of the type."""

    operand: Expr

    def parts(self) -> List[Expr]:
        return [self.operand]


@dataclass
class Compare(Expr):
    """`== != < <= > >=` of two numbers of one type."""

    op: str
    left: Expr
    right: Expr

    def parts(self) -> List[Expr]:
        return [self.left, self.right]


@dataclass
class Logic(Expr):
    """`&&`, `||`, and `!` with one operand."""

    op: str
    operands: List[Expr]

    def parts(self) -> List[Expr]:
        return self.operands


@dataclass
class Choice(Expr):
    """`condition ? yes : no`."""

    condition: Expr
    yes: Expr
    no: Expr

    def parts(self) -> List[Expr]:
        return [self.condition, self.yes, self.no]


@dataclass
class Blocks(Expr):
    """`memcmp` of two places against 0."""

    op: str
    left: Place
    right: Place
    count: int

    def parts(self) -> List[Expr]:
        return [it for place in (self.left, self.right) for it, _ in place.indexes]


@dataclass
class Asked(Expr):
    """A primitive that answers by Z: values and addresses that are pushed, its operands, and the condition under which it is true."""

    pushed: List[object]
    operands: str
    condition: str
    is_effect: bool

    def parts(self) -> List[Expr]:
        return [it for it in parts_of(self.pushed)]


@dataclass
class Called(Expr):
    """The result of a function."""

    function: "Function"
    arguments: List[Expr]

    def parts(self) -> List[Expr]:
        return self.arguments


def parts_of(pushed: List[object]) -> List[Expr]:
    """Returns the expressions in what is pushed: pairs of an expression and its bytes, and places."""
    found: List[Expr] = []
    for it in pushed:
        if isinstance(it, Place):
            found += [index for index, _ in it.indexes]
        elif isinstance(it, tuple):
            found.append(it[0])
    return found


def calls_in(expr: Expr) -> List[Expr]:
    """Returns the calls in an expression, also of primitives that have an effect."""
    found = [expr] if isinstance(expr, Called) or isinstance(expr, Asked) and expr.is_effect else []
    for it in expr.parts():
        found += calls_in(it)
    return found


def truth(at: At, low: int = 0, high: int = 1) -> Tuple[At, Number, int, int]:
    """Returns the front of an expression that is 0 or 1."""
    return at, INT, low, high


# ---- statements


@dataclass
class Statement:
    """A statement, with the place that its code has."""

    at: At


@dataclass
class Assign(Statement):
    """`place = value`, or `place op= value` if `op` is not empty. The value of a plain one has been converted."""

    place: Place
    op: str
    value: Expr


@dataclass
class Copy(Statement):
    """The `count` bytes of one place go to another, in one write."""

    to: Place
    source: Place
    count: int


@dataclass
class Fill(Statement):
    """`count` bytes of a place become 0 or 255."""

    to: Place
    byte: int
    count: int


@dataclass
class Exit(Statement):
    """The application exits; a status and a length that are none stay as they are. One that does not exit only sets them."""

    is_exit: bool
    status: Optional[Expr]
    length: Optional[Expr]


@dataclass
class Primitive(Statement):
    """A primitive without a result: what is pushed, and its operands."""

    pushed: List[object]
    operands: str


@dataclass
class Evaluate(Statement):
    """An expression whose value is dropped: a call."""

    value: Expr


@dataclass
class Declare(Statement):
    """A local is pushed: its bytes, its value, a copy of a place, or zeros."""

    variable: Variable
    value: Optional[Expr] = None
    source: Optional[Place] = None


@dataclass
class Block(Statement):
    """Statements; the locals among them end with it."""

    body: List[Statement]


@dataclass
class If(Statement):
    """`if`."""

    condition: Expr
    yes: Statement
    no: Optional[Statement]


@dataclass
class Loop(Statement):
    """`while`, `do` and `for`: `first` is done once, `step` after each round. The condition of `do` is tested after the first round."""

    first: List[Statement]
    condition: Optional[Expr]
    step: List[Statement]
    body: Statement
    is_do: bool


@dataclass
class Switch(Statement):
    """`switch`: the cases with the number of the statement that each goes to, and that of the default."""

    value: Expr
    cases: List[Tuple[int, int, At]]
    default: Optional[int]
    body: List[Statement]


@dataclass
class Jump(Statement):
    """`break`, `continue`."""

    word: str


@dataclass
class Return(Statement):
    """`return`."""

    value: Optional[Expr]


@dataclass(eq=False)
class Function:
    """A function: its parameters, its result, and what it does. `calls` has an entry for each call in it."""

    name: str
    at: At
    result: Number
    kinds: List[Number]
    parameters: List[Variable] = field(default_factory=list)
    body: Optional[Block] = None
    calls: List[Tuple["Function", At]] = field(default_factory=list)
    writes: bool = False     # of itself: anything but its own locals
    exits: bool = False      # of itself
    is_wild: bool = False    # of itself: at a computed address
    end: Optional[At] = None


@dataclass
class Program:
    """What was read: the AID, the variables of each class in order, and the functions by name."""

    aid: str
    variables: List[Variable] = field(default_factory=list)
    functions: Dict[str, Function] = field(default_factory=dict)

    def reached(self) -> List[Function]:
        """Returns `main` and all functions that it calls, also through others, each once."""
        found: List[Function] = []
        waiting = [self.functions["main"]]
        while waiting:
            it = waiting.pop(0)
            if it not in found:
                found.append(it)
                waiting += [function for function, _ in it.calls]
        return found
