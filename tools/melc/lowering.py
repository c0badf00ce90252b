"""Lowering to blocks: takes the typed program, and returns blocks of instructions, first those of `main`, then those of each routine.

A function with one call is inlined: its parameters become locals, and its result lies below them. One with several calls is a routine, unless the
program writes at a computed address, since code with a CALL may not.
"""

from __future__ import annotations

from dataclasses import dataclass, field
from typing import Dict, List, Optional, Tuple

from .code import Block, Branch, Goto, Ins, Spot, Stop
from .expressions import decided
from .faults import At, Faults
from .selection import WORDS, Selection, TooMuch, core, cut_to, is_same
from .tree import (Assign, Binary, Block as Statements, Called, Compare, Const, Copy, Declare, Evaluate, Exit, Expr, Fill, Function, If, Jump,
 Load, Loop, Place, Primitive, Program, Return, Statement, Switch, Unary, Variable, calls_in)

STACK = 512
SAVED = 4  # bytes of a call


@dataclass
class Local:
    """Where a local lies while its function runs."""

    function: str
    name: str
    operand: str
    size: int
    at: At


@dataclass
class Lowered:
    """What was made: all blocks in order, where the locals lie, and the bytes of stack at the most."""

    blocks: List[Block]
    locals: List[Local]
    most: int


@dataclass
class Around:
    """A loop or a switch: where `break` and `continue` go to, each with the height there."""

    end: Block
    following: Optional[Block]


@dataclass
class Context:
    """A function whose code is made: where `return` goes to, and the result's height and bytes. A routine has its parameters' bytes."""

    function: Function
    end: Optional[Block] = None
    slot: int = 0
    count: int = 0
    parameters: int = -1
    around: List[Around] = field(default_factory=list)


class Lowering(Selection):
    """The pass over statements."""

    def __init__(self, program: Program) -> None:
        super().__init__()
        self.program = program
        reached = program.reached()
        self.is_wild = any(it.is_wild for it in reached)
        calls = [called for it in reached for called, _ in it.calls]
        self.routines = [] if self.is_wild else [it for it in reached if sum(called is it for called in calls) > 1]
        # A label has at most 32 characters.
        self.labels = {it: it.name if len(it.name) <= 32 else f"{it.name[:24]}_{at}" for at, it in enumerate(self.routines)}
        self.contexts: List[Context] = []
        self.locals: List[Local] = []
        self.mosts: Dict[str, int] = {}
        self.calls: List[Tuple[str, str, int]] = []

    def lowered(self) -> Lowered:
        """Returns the blocks of the program."""
        self.current = Block(0, "")
        self.blocks = [self.current]
        main = self.program.functions["main"]
        self._routine(main, "")
        for it in self.routines:
            name = self.routine = self.labels[it]
            self.height = self.most = 0
            self.current = Block(0, name, name=name)
            self.blocks.append(self.current)
            self._routine(it, name)
        return Lowered(self.blocks, self.locals, self._depth(""))

    def _depth(self, name: str) -> int:
        below = [height + SAVED + self._depth(called) for caller, called, height in self.calls if caller == name]
        return max([self.mosts.get(name, 0), *below])

    def _routine(self, function: Function, name: str) -> None:
        size = sum(it.kind.size for it in function.parameters)
        context = Context(function, parameters=size)
        self.contexts.append(context)
        place = -SAVED - size
        for it in function.parameters:
            self.homes[it] = place
            place += it.kind.size
        for it in function.parameters:
            if it.is_written:
                # No write below LB is taken, so it is copied first.
                self.at = it.at
                self.at_spot("LOAD", self.spot(self._whole(it)), it.kind.size, it.kind.size)
                self.homes[it] = self.height - it.kind.size
            self._local(function, it)
        assert function.body is not None
        self.body(function.body.body)
        self.at = function.end or self.at
        self._returned(None)
        self.contexts.pop()
        self.mosts[name] = self.most

    def _whole(self, it: Variable) -> Place:
        return Place(it, 0, [], it.kind, it.at, it.kind.size)

    def _local(self, function: Function, it: Variable) -> None:
        made = Local(function.name, it.name, f"LB[{self.homes[it]}]", it.kind.size, it.at)
        if made not in self.locals:
            self.locals.append(made)

    # ---- statements

    def body(self, statements: List[Statement]) -> None:
        """Does statements; their locals stay."""
        for it in statements:
            self.statement(it)

    def block_of(self, statement: Statement) -> None:
        """Does a statement, and pops its locals."""
        height = self.height
        if isinstance(statement, Statements):
            self.body(statement.body)
        else:
            self.statement(statement)
        self.drop(self.height - height)

    def statement(self, it: Statement) -> None:
        """Does one statement."""
        self.at = it.at
        getattr(self, "_" + type(it).__name__.lower())(it)

    def _block(self, it: Statements) -> None:
        self.block_of(it)

    def _declare(self, it: Declare) -> None:
        variable, height = it.variable, self.height
        if it.value is not None:
            self.push(it.value, variable.kind.size)
        elif it.source is not None:
            self._record(it.source, variable.kind.size)
        else:
            self.content(variable.initial if variable.initial is not None else bytes(variable.kind.size))
        self.homes[variable] = height
        self._local(self.contexts[-1].function, variable)

    def _record(self, source: Place, count: int) -> None:
        if source.is_fixed:
            self.at_spot("LOAD", self.spot(source), count, count)
            return
        self.zeros(count)
        self.address(source)
        self.at_top("LOADI", count, count)
        self.at_spot("STORE", Spot("DT", -2 * count - 2), count, -count)
        self.drop(2)

    def _evaluate(self, it: Evaluate) -> None:
        self.effects(it.value)
        if isinstance(it.value, Called) or calls_in(it.value):
            return
        end = self.block()
        self.branch(it.value, end, end)
        self.start(end)

    def _copy(self, it: Copy) -> None:
        count, before = it.count, self.height
        if it.to.is_fixed:
            self.bytes_of(it.source, count)
            self.at_spot("STORE", self.spot(it.to), count, -count)
        elif it.source.is_fixed:
            self.address(it.to)
            self.at_spot("LOAD", self.spot(it.source), count, count)
            self.at_top("STOREI", count, -count)
        else:
            self.address(it.to)
            self.address(it.source)
            self.emit("PRIM", f"2,{count}", -4)
        self.drop(self.height - before)

    def _fill(self, it: Fill) -> None:
        if it.to.is_fixed and not it.byte:
            self.at_spot("CLEARN", self.spot(it.to), it.count)
            return
        if not it.to.is_fixed:
            self.address(it.to)
        self.zeros(it.count)
        if it.byte:
            self.at_top("NOTN", it.count)
        if it.to.is_fixed:
            self.at_spot("STORE", self.spot(it.to), it.count, -it.count)
        else:
            self.at_top("STOREI", it.count, -it.count)
            self.drop(2)

    def _primitive(self, it: Primitive) -> None:
        self.ask(it.pushed, it.operands)

    def _exit(self, it: Exit) -> None:
        fixed: Dict[str, Optional[int]] = {"SW": None, "LA": None}
        for name, value, offset in (("SW", it.status, -2), ("LA", it.length, -4)):
            if value is None:
                continue
            if value.value is not None and not calls_in(value):
                fixed[name] = value.value
            else:
                self.push(value, 2)
                self.at_spot("STORE", Spot("PT", offset, {"SW": "SW", "LA": "La"}[name], 0, 2), 2, -2)
        front = "EXIT" if it.is_exit else "SET"
        names = [name for name in ("SW", "LA") if fixed[name] is not None]
        word, operands = front + "".join(names), ",".join(f"0x{fixed[name]:04X}" for name in names)
        if it.is_exit:
            self.close(Stop(self._made(word, operands)))
        elif names:
            self.emit(word, operands)

    def _made(self, word: str, operands: str) -> Ins:
        self.emit(word, operands)
        return self.current.code.pop()

    # ---- assignments

    def _assign(self, it: Assign) -> None:
        place, size = it.place, it.place.kind.size
        value = cut_to(it.value, size)
        if place.is_fixed:
            self._to_fixed(place, value, size)
            return
        self.address(place)
        inside = self._inside(place, value, size)
        if inside is not None:
            op, right = inside
            self.at_top("LOADI", size, size)
            if op == "~":
                self.at_top("NOTN", size)
            else:
                self.apply(op, right, size)
        else:
            self.push(value, size)
        self.at_top("STOREI", size, -size)
        self.drop(2)

    def _inside(self, place: Place, value: Expr, size: int) -> Optional[Tuple[str, Expr]]:
        """Returns the operation and its other operand, if a value is one of the place itself."""
        if isinstance(value, Unary) and value.op == "~" and self._is_it(place, value.operand, size):
            return "~", value.operand
        if not isinstance(value, Binary):
            return None
        if value.op in ("<<", ">>", "*"):
            return (value.op, value.right) if self._is_it(place, value.left, size) and not place.is_fixed else None
        if self._is_it(place, value.left, size):
            return value.op, value.right
        if value.op != "-" and self._is_it(place, value.right, size):
            return value.op, value.left
        return None

    def _is_it(self, place: Place, value: Expr, size: int) -> bool:
        found = cut_to(value, size)
        return isinstance(found, Load) and is_same(found.place, place)

    def _to_fixed(self, place: Place, value: Expr, size: int) -> None:
        spot = self.spot(place)
        if value.value is not None and not calls_in(value):
            self._constant(spot, value.value % (1 << 8 * size), size)
            return
        inside = self._inside(place, value, size)
        if inside is None:
            other = self.loose(value, size)
            self.at_spot("STORE", spot, size, -size)
            self.drop(other)
        elif inside[0] == "~":
            self.at_spot("NOTN", spot, size)
        else:
            self._in_place(spot, *inside, size)

    def _constant(self, spot: Spot, value: int, size: int) -> None:
        if size == 1:
            self.at_spot("SETB", spot, value)
        elif not value:
            self.at_spot("CLEARN", spot, size)
        elif size == 2:
            self.at_spot("SETW", spot, value)
        else:
            self.number(value, size)
            self.at_spot("STORE", spot, size, -size)

    def _in_place(self, spot: Spot, op: str, right: Expr, size: int) -> None:
        """Changes a number where it lies."""
        if isinstance(right, Const) and op in "+-":
            value = right.low % (1 << 8 * size)
            more = value if op == "+" else -value % (1 << 8 * size)
            if more in (1, (1 << 8 * size) - 1):
                self.at_spot("INCN" if more == 1 else "DECN", spot, size)
                return
            if size <= 2:
                self.at_spot({"+": "ADD", "-": "SUB"}[op] + {1: "B", 2: "W"}[size], spot, value)
                return
        if isinstance(right, Const) and op == "^" and right.low % (1 << 8 * size) == (1 << 8 * size) - 1:
            self.at_spot("NOTN", spot, size)
            return
        if self.is_on_top(right, size):
            self.at_spot(WORDS[op], spot, size)
            return
        other = self.loose(right, size)
        self.at_spot(WORDS[op], spot, size)
        self.drop(size + other)

    # ---- branches and loops

    def _if(self, it: If) -> None:
        yes, end = self.block(), self.block()
        no = self.block() if it.no is not None else end
        self.branch(it.condition, yes, no)
        self.start(yes)
        self.block_of(it.yes)
        if it.no is not None:
            self.close(Goto(end, self.at))
            self.start(no)
            self.block_of(it.no)
        self.start(end)

    def _loop(self, it: Loop) -> None:
        self.body(it.first)
        body, following, end = self.block(), self.block(), self.block()
        test = self.block() if it.step else following
        context = self.contexts[-1]
        context.around.append(Around(end, following))
        self.at = it.at
        if it.condition is not None and not it.is_do and not self._is_true_first(it):
            self.close(Goto(test, it.at))
        self.start(body)
        self.block_of(it.body)
        context.around.pop()
        self.start(following)
        if it.step:
            self.body(it.step)
            self.start(test)
        self.at = it.at
        if it.condition is None:
            self.close(Goto(body, it.at))
        else:
            self.branch(it.condition, body, end)
        self.start(end)

    def _is_true_first(self, it: Loop) -> bool:
        """Whether the condition of a `for` holds before the first round: of a number that was set to a constant right before."""
        last = it.first[-1] if it.first else None
        if it.condition is not None and it.condition.value == 1 and not calls_in(it.condition):
            return True
        if not isinstance(it.condition, Compare) or not isinstance(it.condition.right, Const):
            return False
        left = core(it.condition.left)
        if not isinstance(left, Load):
            return False
        if isinstance(last, Declare) and left.place.is_fixed and left.place.variable is last.variable:
            value = last.value if last.value is not None else Const(it.at, it.condition.left.type, 0, 0) if last.variable.initial is None else None
        elif isinstance(last, Assign) and is_same(left.place, last.place) and left.place.is_fixed:
            value = last.value
        else:
            return False
        if value is None or value.value is None or calls_in(value):
            return False
        return decided(it.condition.op, value, it.condition.right) is True

    def _switch(self, it: Switch) -> None:
        before = self.height
        value = core(it.value)
        fixed = isinstance(value, Load) and value.place.is_fixed
        count = value.type.size if fixed else max(1, (it.value.high.bit_length() + 7) // 8)
        if not fixed:
            self.push(it.value, count)
        places: Dict[int, Block] = {}
        end = self.block()
        for number, place, at in it.cases:
            if not it.value.low <= number <= it.value.high:
                continue
            target = places.setdefault(place, self.block())
            following = self.block()
            self.at = at
            if count <= 2:
                word = {1: "CMPB", 2: "CMPW"}[count]
                if fixed:
                    self.at_spot(word, self.spot(value.place), number)  # type: ignore[attr-defined]
                else:
                    self.at_top(word, number)
            else:
                self.number(number, count)
                if fixed:
                    self.at_spot("CMPN", self.spot(value.place), count)  # type: ignore[attr-defined]
                else:
                    self.at_top("CMPN", count)
                self.drop(count)
            self.close(Branch("EQ", target, following, at))
            self.start(following)
        self.at = it.at
        default = places.setdefault(it.default, self.block()) if it.default is not None else end
        self.close(Goto(default, it.at))
        self.contexts[-1].around.append(Around(end, None))
        for place, statement in enumerate([*it.body, None]):
            if place in places:
                self.start(places[place])
            if statement is not None:
                self.statement(statement)
        self.contexts[-1].around.pop()
        self.start(end)
        self.drop(self.height - before)

    def _jump(self, it: Jump) -> None:
        found = [around for around in self.contexts[-1].around if it.word == "break" or around.following is not None]
        target = found[-1].end if it.word == "break" else found[-1].following
        assert target is not None
        self._to(target)

    def _to(self, target: Block) -> None:
        """Pops what is above the height of a block, and goes there; the height is that of what follows here."""
        height = self.height
        self.drop(height - target.height)
        self.height = target.height
        self.close(Goto(target, self.at))
        self.height = self.current.height = height

    # ---- functions

    def _return(self, it: Return) -> None:
        self._returned(it.value)

    def _returned(self, value: Optional[Expr]) -> None:
        context, height = self.contexts[-1], self.height
        if context.end is not None:
            if value is not None and context.count:
                self._result(value, context)
            elif value is not None:
                self.effects(value)
            self._to(context.end)
            return
        if context.function.name == "main":
            self.close(Stop(self._made("EXIT", ""), True))
        else:
            size = context.function.result.size
            if value is not None:
                self.push(value, size)
            elif size:
                self.zeros(size)
            word = {(0, 0): "RET", (1, 0): "RETI", (0, 1): "RETO", (1, 1): "RETIO"}[context.parameters > 0, size > 0]
            operands = ",".join(str(it) for it in (context.parameters, size) if it)
            self.close(Stop(self._made(word, operands)))
        self.height = self.current.height = height

    def _result(self, value: Expr, context: Context) -> None:
        spot, count = Spot("LB", context.slot), context.count
        if value.value is not None and not calls_in(value):
            self._constant(spot, value.value % (1 << 8 * count), count)
            return
        other = self.loose(value, count)
        self.at_spot("STORE", spot, count, -count)
        self.drop(other)

    def call(self, expr: Called, count: int) -> None:
        """Pushes the lowest `count` bytes of the result of a function."""
        function, at = expr.function, self.at
        if function in self.routines:
            self._called(expr, count)
        else:
            self._inlined(expr, count)
        self.at = at

    def _called(self, expr: Called, count: int) -> None:
        function, before = expr.function, self.height
        for argument, it in zip(expr.arguments, function.parameters):
            self.push(argument, it.kind.size)
        self.calls.append((self.routine, self.labels[function], self.height))
        size = function.result.size
        self.emit("CALL", f"ALL,{self.labels[function]}", before + size - self.height)
        if not count:
            self.drop(size)
        else:
            self.squeeze(count, size - count)

    def _inlined(self, expr: Called, count: int) -> None:
        function, slot = expr.function, self.height
        assert function.body is not None
        self.zeros(count)
        for argument, it in zip(expr.arguments, function.parameters):
            self.push(argument, it.kind.size)
            self.homes[it] = self.height - it.kind.size
            self._local(function, it)
        end = self.block(slot + count)
        self.contexts.append(Context(function, end, slot, count))
        self.body(function.body.body)
        self.drop(self.height - slot - count)
        self.contexts.pop()
        self.start(end)


def lowered(program: Program, faults: Faults, path: str) -> Optional[Lowered]:
    """Returns the blocks of a program, or None if its code or its stack is too long."""
    top = At(path, 1)
    try:
        made = Lowering(program).lowered()
    except TooMuch:
        faults.error(top, "the code is longer than 8192 bytes: functions that are called several times are inlined, since an address is computed")
        return None
    session = sum(it.kind.size for it in program.variables if it.memory == "session")
    if made.most + session > STACK:
        faults.error(top, f"locals, parameters and calls may take {made.most} bytes, and {STACK - session} are left of {STACK}")
        return None
    return made

