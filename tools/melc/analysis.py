"""Declarations and statements: takes what the parser made of a file, and returns the typed program, or refuses what is not taken.

After a declaration that is refused no function is read; of functions each statement that is refused is told.
"""

from __future__ import annotations

import re
from typing import Callable, Dict, List, Optional, Tuple

from pycparser import c_ast

from .expressions import converted, promoted, text_bytes
from .faults import At, Faults, Refused, at_of
from .kinds import INT, U8, U32, VOID, Array, Kind, Number, Record
from .library import Library
from .names import Names, inner
from .source import Source, is_own
from .tree import (Asked, Assign, Block, Called, Const, Copy, Declare, Evaluate, Expr, Function, If, Jump, Load, Loop, Place, Program, Return,
                   Statement, Switch, Variable, calls_in)

STATIC_ROOM, SESSION_ROOM, PUBLIC_ROOM = 4096, 256, 1041
ATTRIBUTE = re.compile(r'attribute\s*\(\s*"(\w+)"\s*,\s*"([^"]*)"\s*\)$')
CLASS = re.compile(r"(melstatic|melsession|melpublic)(?:\s+(\w+))?$")
OPS = {"+=": "+", "-=": "-", "&=": "&", "|=": "|", "^=": "^", "<<=": "<<", ">>=": ">>", "*=": "*", "/=": "/", "%=": "%"}


class Analysis:
    """The passes over declarations and functions of one file."""

    def __init__(self, source: Source, faults: Faults) -> None:
        self.source, self.faults = source, faults
        self.names = Names()
        self.expressions = Library(self.names, faults)
        self.aid: Optional[str] = None
        self.memory = ""
        self.places = {"static": 0, "session": 0, "public": 0}
        self.variables: List[Variable] = []
        self.bodies: List[Tuple[Function, c_ast.FuncDef]] = []
        self.function: Optional[Function] = None
        # What `break` and `continue` may leave.
        self.around: List[str] = []

    def program(self) -> Optional[Program]:
        """Returns the program, or None if a declaration is refused."""
        for it in self.source.declarations:
            self._tried(lambda it=it: self._outside(it), it)
        top = At(self.source.path, 1)
        if self.aid is None and not self.faults.is_refused:
            self.faults.error(top, 'the AID is due: `#pragma attribute("aid", "A0 00 00 00 01")`')
        main = self.names.functions.get("main")
        if not self.faults.is_refused and (main is None or not any(it is main for it, _ in self.bodies)):
            self.faults.error(top, "there is no `void main(void)`")
        if self.faults.is_refused:
            return None
        for function, node in self.bodies:
            self._body(function, node)
        program = Program(self.aid or "", self.variables, self.names.functions)
        self._calls(program)
        return program

    def _tried(self, do: Callable[[], None], node: c_ast.Node) -> None:
        try:
            do()
        except Refused as why:
            at = why.at if why.at.line else at_of(node, At(self.source.path, 1))
            self.faults.error(at, why.text)
        except RecursionError:
            self.faults.error(at_of(node, At(self.source.path, 1)), "this is nested too deeply")

    # ---- declarations

    def _outside(self, node: c_ast.Node) -> None:
        at = at_of(node, At(self.source.path, 1))
        if isinstance(node, c_ast.Pragma):
            self._pragma(node.string, at)
        elif isinstance(node, c_ast.Typedef):
            self._typedef(node, at)
        elif isinstance(node, c_ast.FuncDef):
            self._function(node.decl, node, at)
        elif isinstance(node, c_ast.Decl):
            self._declaration(node, at)
        else:
            raise Refused(at, "this declaration is not taken")

    def _pragma(self, text: str, at: At) -> None:
        text = (text or "").strip()
        if found := ATTRIBUTE.match(text):
            digits = re.sub(r"\s", "", found[2]).upper()
            if found[1] != "aid":
                raise Refused(at, f"the attribute `{found[1]}` is not taken: `aid` is the only one")
            if self.aid is not None:
                raise Refused(at, "the AID is given twice")
            if not re.fullmatch(r"(?:[0-9A-F]{2}){5,16}", digits):
                raise Refused(at, "an AID has 5 to 16 bytes in hexadecimal")
            self.aid = digits
            return
        found = CLASS.match(text)
        if found is None:
            raise Refused(at, f"`#pragma {text}` is not known: attribute, melstatic, melsession, melpublic")
        self.memory = found[1][3:]
        if found[2] is None:
            return
        if self.memory != "public" or not found[2].isdigit():
            raise Refused(at, f"`#pragma {text}`: a number of a byte stands behind melpublic alone")
        if int(found[2]) >= PUBLIC_ROOM:
            raise Refused(at, f"the public bytes are 0 to {PUBLIC_ROOM - 1}")
        self.places["public"] = int(found[2])

    def _typedef(self, node: c_ast.Typedef, at: At) -> None:
        self.names.due(node.name, at, False)
        if self.names.enum(node.type, at):
            raise Refused(at, "an object of an enum is an `int` in C: name BYTE, WORD or DWORD by a typedef")
        if isinstance(node.type, c_ast.FuncDecl):
            raise Refused(at, "there are no types of functions")
        if inner(node.type)[1]:
            raise Refused(at, "a typedef has no `const` and no `volatile`")
        self.names.typedefs[node.name] = self.names.kind(node.type, at)

    def _declaration(self, node: c_ast.Decl, at: At) -> None:
        if is_own(at):
            return
        if isinstance(node.type, c_ast.FuncDecl):
            self._function(node, None, at)
            return
        if node.name is None:
            if not self.names.enum(node.type, at):
                self.names.kind(node.type, at)
            return
        self._storage(node, at, ("extern", "auto", "register", "_Thread_local"))
        self.names.due(node.name, at)
        kind, is_const = self.names.object(node.type, at), "const" in inner(node.type)[1]
        if not self.memory:
            raise Refused(at, f"`{node.name}` has no class: write `#pragma melstatic`, `melsession` or `melpublic` above")
        if is_const and self.memory != "static":
            raise Refused(at, "what is `const` is static: write `#pragma melstatic` above")
        made = Variable(node.name, kind, self.memory, at, self.places[self.memory], is_const)
        if node.init is not None:
            if self.memory != "static":
                raise Refused(at, f"{self.memory} bytes have no initial value: assign one")
            made.initial = self.initial(node.init, kind, at)
        elif is_const:
            raise Refused(at, f"`{node.name}` is `const` and has no value")
        self.names.variables[node.name] = made
        self.variables.append(made)
        self.places[self.memory] += kind.size
        most = {"static": STATIC_ROOM, "session": SESSION_ROOM, "public": PUBLIC_ROOM}[self.memory]
        if self.places[self.memory] > most:
            raise Refused(at, f"there are {most} {self.memory} bytes, and `{node.name}` would end at {self.places[self.memory]}")

    def _storage(self, node: c_ast.Decl, at: At, refused: Tuple[str, ...]) -> None:
        for word in node.storage or []:
            if word in refused:
                raise Refused(at, f"`{word}` is not taken" + (": all of an application is one file" if word == "extern" else
                                                              ": declare it at the top of the file" if word == "static" else ""))
        if "_Atomic" in (node.quals or []) or "volatile" in (node.quals or []):
            raise Refused(at, f"`{'volatile' if 'volatile' in node.quals else '_Atomic'}` is not taken: leave it out")

    def initial(self, node: c_ast.Node, kind: Kind, at: At) -> bytes:
        """Returns the bytes of an initial value."""
        at = at_of(node, at)
        if isinstance(kind, Number):
            if isinstance(node, c_ast.InitList):
                if len(node.exprs) != 1:
                    raise Refused(at, "a number has one initial value")
                node = node.exprs[0]
            if isinstance(node, c_ast.NamedInitializer):
                raise Refused(at, "write initial values in their order, without names")
            value = self.expressions.value(node)
            if not isinstance(value, Const):
                raise Refused(value.at, "an initial value is a constant")
            return converted(value, kind).low.to_bytes(kind.size, "big")
        if isinstance(node, c_ast.Constant) and node.type == "string":
            return self._string(node, kind, at)
        if not isinstance(node, c_ast.InitList):
            raise Refused(at, "the initial value of an array or a struct is in braces")
        if isinstance(kind, Record) and kind.is_union:
            raise Refused(at, "a union has no initial value: assign one")
        kinds = [kind.element] * kind.count if isinstance(kind, Array) else [it for _, it in kind.members.values()]
        if len(node.exprs) > len(kinds):
            raise Refused(at, f"{len(node.exprs)} values are more than the {len(kinds)} that there are")
        found = b""
        for it, each in zip(node.exprs, kinds):
            if not isinstance(each, Number) and not isinstance(it, c_ast.InitList) and not (isinstance(it, c_ast.Constant) and it.type == "string"):
                raise Refused(at_of(it, at), "write the braces of each array and struct")
            found += self.initial(it, each, at)
        return found.ljust(kind.size, b"\0")

    def _string(self, node: c_ast.Constant, kind: Kind, at: At) -> bytes:
        if not isinstance(kind, Array) or kind.element is not U8 or not node.value.startswith('"'):
            raise Refused(at, "a string is the initial value of an array of BYTE")
        found = text_bytes(node.value[1:-1], at)
        if len(found) > kind.count:
            raise Refused(at, f"a string of {len(found)} bytes is more than the {kind.count} that there are")
        return found.ljust(kind.count, b"\0")

    # ---- functions

    def _function(self, decl: c_ast.Decl, node: Optional[c_ast.FuncDef], at: At) -> None:
        name = decl.name
        self._storage(decl, at, ("extern", "auto", "register"))
        if "inline" in (decl.funcspec or []):
            raise Refused(at, "`inline` is not taken: a function with one call is inlined")
        if node is not None and node.param_decls:
            raise Refused(at, "write the types of parameters in the brackets")
        kinds, given = self._parameters(decl.type, at)
        result = self.names.scalar(decl.type.type, at, "a result", True)
        known = self.names.functions.get(name)
        if known is None:
            self.names.due(name, at, False)
            known = self.names.functions[name] = Function(name, at, result, kinds)
        elif known.kinds != kinds or known.result is not result:
            raise Refused(at, f"`{name}` has another prototype above")
        if name == "main" and (kinds or result is not VOID):
            raise Refused(at, "it is `void main(void)`")
        if node is not None:
            if any(it is known for it, _ in self.bodies):
                raise Refused(at, f"`{name}` is declared twice")
            known.at, known.end = at, At(at.file, _last(node, at.file, at.line))
            for it, kind in zip(given, kinds):
                if it.name is None:
                    raise Refused(at_of(it, at), "a parameter has a name")
                known.parameters.append(Variable(it.name, kind, "local", at_of(it, at), is_const="const" in (it.quals or [])))
            self.bodies.append((known, node))

    def _parameters(self, node: c_ast.FuncDecl, at: At) -> Tuple[List[Number], List[c_ast.Node]]:
        given = list(node.args.params) if node.args is not None else []
        if len(given) == 1 and isinstance(given[0], c_ast.Typename) and self._is_void(given[0]):
            return [], []
        kinds = []
        for it in given:
            where = at_of(it, at)
            if isinstance(it, c_ast.EllipsisParam):
                raise Refused(where, "`...` is not taken: a function has a number of parameters")
            if isinstance(it, c_ast.ID):
                raise Refused(where, "write the types of parameters in the brackets")
            if isinstance(it.type, (c_ast.ArrayDecl, c_ast.FuncDecl, c_ast.PtrDecl)):
                raise Refused(where, "there are no pointers, also as parameters: pass an index, and name the array")
            kinds.append(self.names.scalar(it.type, where, "a parameter"))
        return kinds, given

    def _is_void(self, node: c_ast.Node) -> bool:
        kind = node.type
        return isinstance(kind, c_ast.TypeDecl) and isinstance(kind.type, c_ast.IdentifierType) and kind.type.names == ["void"]

    def _body(self, function: Function, node: c_ast.FuncDef) -> None:
        self.function = self.expressions.function = function
        self.around = []
        self.names.locals = [{}]
        body: List[Statement] = []
        for it in function.parameters:
            self._tried(lambda it=it: self._named(it), node)
        for child in node.body.block_items or []:
            self._tried(lambda child=child: body.extend(self.statement(child)), child)
        function.body = Block(function.at, body)
        self.names.locals = []
        self.function = self.expressions.function = None

    def _named(self, variable: Variable) -> None:
        self.names.due(variable.name, variable.at)
        self.names.locals[-1][variable.name] = variable

    # ---- statements

    def statement(self, node: c_ast.Node) -> List[Statement]:
        """Returns what a statement becomes."""
        at = at_of(node)
        method = getattr(self, "_" + type(node).__name__.lower(), None)
        if isinstance(node, c_ast.Decl):
            return self._local(node, at)
        if isinstance(node, (c_ast.Label, c_ast.Goto)):
            raise Refused(at, "there are no labels and no `goto`: take a loop with `break` or a function with `return`")
        if isinstance(node, (c_ast.Case, c_ast.Default)):
            raise Refused(at, "a case stands in the braces of a switch")
        if isinstance(node, c_ast.Pragma):
            raise Refused(at, "a `#pragma` stands outside of functions")
        if isinstance(node, c_ast.DeclList):
            return [made for it in node.decls for made in self.statement(it)]
        if method is not None and type(node).__name__ in STATEMENTS:
            found: List[Statement] = method(node, at)
            return found
        return self._expression(node, at)

    def block(self, node: Optional[c_ast.Node], at: At) -> Block:
        """Returns a statement as a block of its own."""
        self.names.locals.append({})
        body: List[Statement] = []
        try:
            items = (node.block_items or []) if isinstance(node, c_ast.Compound) else [node] if node is not None else []
            for it in items:
                self._tried(lambda it=it: body.extend(self.statement(it)), it)
        finally:
            self.names.locals.pop()
        return Block(at_of(node, at), body)

    def _compound(self, node: c_ast.Compound, at: At) -> List[Statement]:
        return [self.block(node, at)]

    def _emptystatement(self, node: c_ast.Node, at: At) -> List[Statement]:
        return []

    def _local(self, node: c_ast.Decl, at: At) -> List[Statement]:
        if isinstance(node.type, c_ast.FuncDecl):
            raise Refused(at, "a function is declared at the top of a file")
        if node.name is None:
            if not self.names.enum(node.type, at):
                self.names.kind(node.type, at)
            return []
        self._storage(node, at, ("static", "extern", "register", "auto"))
        self.names.due(node.name, at)
        kind, is_const = self.names.object(node.type, at), "const" in inner(node.type)[1]
        made = Variable(node.name, kind, "local", at, 0, is_const)
        # In C a name is there from its own initial value on.
        self.names.locals[-1][node.name] = made
        if node.init is None:
            if is_const:
                raise Refused(at, f"`{node.name}` is `const` and has no value")
            return [Declare(at, made)]
        if isinstance(kind, Number) and not isinstance(node.init, c_ast.InitList):
            value = self.expressions.value(node.init)
            if any(it is made for it in self._read(value)):
                raise Refused(value.at, f"`{node.name}` has no value yet")
            return [Declare(at, made, converted(value, kind))]
        if isinstance(kind, Record) and not isinstance(node.init, c_ast.InitList):
            return [Declare(at, made, source=self._record(node.init, kind))]
        made.initial = self.initial(node.init, kind, at)
        return [Declare(at, made)]

    def _read(self, value: Expr) -> List[Variable]:
        found = [value.place.variable] if isinstance(value, Load) else []
        return found + [it for part in value.parts() for it in self._read(part)]

    def _record(self, node: c_ast.Node, kind: Record) -> Place:
        found = self.expressions.place(node)
        if found.kind is not kind:
            raise Refused(found.at, "this is another type")
        if kind.size > 255:
            raise Refused(found.at, "a struct of more than 255 bytes is copied in parts, by memcpy")
        return found

    def _expression(self, node: c_ast.Node, at: At) -> List[Statement]:
        if isinstance(node, c_ast.Assignment):
            return [self._assigned(node, at)]
        if isinstance(node, c_ast.UnaryOp) and node.op in ("++", "--", "p++", "p--"):
            place = self._target(node.expr)
            return [self._changed(place, node.op.replace("p", "")[0], Const(at, INT, 1, 1), at)]
        if isinstance(node, c_ast.FuncCall):
            made = self.expressions.statement(node, at)
            if made is not None:
                return [made]
            value = self.expressions.any_value(node)
            if not isinstance(value, (Called, Asked)):
                raise Refused(at, "this statement does nothing")
            return [Evaluate(at, value)]
        if isinstance(node, c_ast.ExprList):
            raise Refused(at, "`,` stands in a `for` alone: write two statements")
        if isinstance(node, c_ast.Cast):
            raise Refused(at, "this statement does nothing: write it without the cast")
        self.expressions.any_value(node)
        raise Refused(at, "this statement does nothing" + (": was `=` meant?" if isinstance(node, c_ast.BinaryOp) and node.op == "==" else ""))

    def _target(self, node: c_ast.Node) -> Place:
        found = self.expressions.target(node)
        if not isinstance(found.kind, Number):
            raise Refused(found.at, "an array or a struct is no number")
        return found

    def _assigned(self, node: c_ast.Assignment, at: At) -> Statement:
        if node.op != "=":
            if node.op not in OPS:
                raise Refused(at, f"`{node.op}` is not taken")
            place = self._target(node.lvalue)
            return self._changed(place, OPS[node.op], self.expressions.value(node.rvalue), at)
        place = self.expressions.target(node.lvalue)
        if isinstance(place.kind, Array):
            raise Refused(at, "an array is no number: copy it by memcpy")
        if isinstance(place.kind, Record):
            source = self._record(node.rvalue, place.kind)
            self.expressions.beside(at, [it for each in (place, source) for it, _ in each.indexes])
            return Copy(at, place, source, place.kind.size)
        value = self.expressions.value(node.rvalue)
        self.expressions.beside(at, [*(it for it, _ in place.indexes), value])
        return Assign(at, place, "", converted(value, place.kind))

    def _changed(self, place: Place, op: str, value: Expr, at: At) -> Statement:
        assert isinstance(place.kind, Number)
        load = Load(at, place.kind, place.kind.low, place.kind.high, place)
        self.expressions.beside(at, [*(it for it, _ in place.indexes), value])
        # The whole is made for what it refuses; what is kept is its right operand in the common type.
        whole = self.expressions.binary(op, load, value, at)
        return Assign(at, place, "", converted(whole, place.kind))

    def _if(self, node: c_ast.If, at: At) -> List[Statement]:
        condition = self.expressions.condition(node.cond)
        yes = self.block(node.iftrue, at)
        return [If(at, condition, yes, self.block(node.iffalse, at) if node.iffalse is not None else None)]

    def _looped(self, node: c_ast.Node, at: At) -> Block:
        self.around.append("loop")
        try:
            return self.block(node, at)
        finally:
            self.around.pop()

    def _while(self, node: c_ast.While, at: At) -> List[Statement]:
        condition = self.expressions.condition(node.cond)
        return [Loop(at, [], condition, [], self._looped(node.stmt, at), False)]

    def _dowhile(self, node: c_ast.DoWhile, at: At) -> List[Statement]:
        body = self._looped(node.stmt, at)
        return [Loop(at, [], self.expressions.condition(node.cond), [], body, True)]

    def _for(self, node: c_ast.For, at: At) -> List[Statement]:
        self.names.locals.append({})
        try:
            first = self._listed(node.init, at)
            condition = self.expressions.condition(node.cond) if node.cond is not None else None
            step = self._listed(node.next, at)
            body = self._looped(node.stmt, at)
        finally:
            self.names.locals.pop()
        return [Block(at, [Loop(at, first, condition, step, body, False)])]

    def _listed(self, node: Optional[c_ast.Node], at: At) -> List[Statement]:
        if node is None:
            return []
        return [made for it in (node.exprs if isinstance(node, c_ast.ExprList) else [node]) for made in self.statement(it)]

    def _switch(self, node: c_ast.Switch, at: At) -> List[Statement]:
        value = promoted(self.expressions.value(node.cond))
        if value.low < 0:
            raise Refused(value.at, "this may be negative, and its sign counts in a switch: compare before you subtract, or cast")
        if not isinstance(node.stmt, c_ast.Compound):
            raise Refused(at, "a switch has braces")
        cases: List[Tuple[int, int, At]] = []
        default: Optional[int] = None
        body: List[Statement] = []
        seen: Dict[int, At] = {}
        self.around.append("switch")
        self.names.locals.append({})
        try:
            for it in node.stmt.block_items or []:
                where = at_of(it, at)
                if not isinstance(it, (c_ast.Case, c_ast.Default)):
                    raise Refused(where, "a statement of a switch stands below a case")
                while True:
                    if isinstance(it, c_ast.Default):
                        if default is not None:
                            raise Refused(where, "a switch has one default")
                        default = len(body)
                    else:
                        number = self._case(it, value, where)
                        if number in seen:
                            raise Refused(where, f"the case {number} is there twice")
                        seen[number] = where
                        cases.append((number, len(body), where))
                    stmts = list(it.stmts or [])
                    if not stmts or not isinstance(stmts[0], (c_ast.Case, c_ast.Default)):
                        break
                    it, where = stmts[0], at_of(stmts[0], where)
                for child in stmts:
                    self._tried(lambda child=child: body.extend(self._in_case(child)), child)
        finally:
            self.names.locals.pop()
            self.around.pop()
        return [Switch(at, value, cases, default, body)]

    def _in_case(self, node: c_ast.Node) -> List[Statement]:
        if isinstance(node, (c_ast.Decl, c_ast.DeclList)):
            raise Refused(at_of(node), "a declaration in a case stands in a block: write braces")
        return self.statement(node)

    def _case(self, node: c_ast.Case, value: Expr, at: At) -> int:
        found = self.expressions.value(node.expr)
        if not isinstance(found, Const):
            raise Refused(found.at, "a case is a constant")
        number = found.low % (1 << 32) if value.type is U32 else found.low
        return number

    def _break(self, node: c_ast.Node, at: At) -> List[Statement]:
        if not self.around:
            raise Refused(at, "`break` stands in a loop or a switch")
        return [Jump(at, "break")]

    def _continue(self, node: c_ast.Node, at: At) -> List[Statement]:
        if "loop" not in self.around:
            raise Refused(at, "`continue` stands in a loop")
        return [Jump(at, "continue")]

    def _return(self, node: c_ast.Return, at: At) -> List[Statement]:
        assert self.function is not None
        if self.function.result is VOID:
            if node.expr is not None:
                raise Refused(at, f"`{self.function.name}` has no result")
            return [Return(at, None)]
        if node.expr is None:
            raise Refused(at, f"`{self.function.name}` has a result: return it")
        return [Return(at, converted(self.expressions.value(node.expr), self.function.result))]

    # ---- all functions

    def _calls(self, program: Program) -> None:
        """Refuses what needs all functions: calls of none, recursion, and calls beside others without an order."""
        bodies = {id(it) for it, _ in self.bodies}
        for function, _ in self.bodies:
            for called, at in function.calls:
                if id(called) not in bodies:
                    self.faults.error(at, f"`{called.name}` has a prototype and no body")
        for function, _ in self.bodies:
            way = self._way_back(function)
            if way is not None:
                self.faults.error(way, f"`{function.name}` calls itself, in the end: write a loop")
        if self.faults.is_refused and any(self._way_back(it) is not None for it, _ in self.bodies):
            return
        for at, operands in self.expressions.orders:
            self._order(at, operands)
        reached = program.reached()
        for function, _ in self.bodies:
            if function not in reached:
                self.faults.warning(function.at, f"`{function.name}` is never called, and makes no code")

    def _way_back(self, function: Function) -> Optional[At]:
        """Returns the first call from which a function comes to itself, or None."""
        for called, at in function.calls:
            seen, waiting = set(), [called]
            while waiting:
                it = waiting.pop()
                if it is function:
                    return at
                if id(it) not in seen:
                    seen.add(id(it))
                    waiting += [other for other, _ in it.calls]
        return None

    def _effects(self, function: Function) -> Tuple[bool, bool]:
        found, waiting = [], [function]
        while waiting:
            it = waiting.pop()
            if it not in found:
                found.append(it)
                waiting += [called for called, _ in it.calls]
        return any(it.writes for it in found), any(it.exits for it in found)

    def _order(self, at: At, operands: List[Expr]) -> None:
        effects = []
        for it in operands:
            writes = exits = False
            for call in calls_in(it):
                one, other = self._effects(call.function) if isinstance(call, Called) else (True, False)
                writes, exits = writes or one, exits or other
            effects.append((writes, exits))
        for at_one, (writes, exits) in enumerate(effects):
            others = [it for place, it in enumerate(operands) if place != at_one and not isinstance(it, Const)]
            beside = [it for place, it in enumerate(effects) if place != at_one]
            if writes and others or exits and any(one or other for one, other in beside):
                call = calls_in(operands[at_one])[0]
                name = call.function.name if isinstance(call, Called) else "multosGetDelegatorAID"
                self.faults.error(call.at, f"C leaves open whether `{name}` is called before what stands beside it: call it first, into a local")
                return


def _last(node: c_ast.Node, file: str, line: int) -> int:
    """Returns the last line of a file that a node has."""
    here = at_of(node)
    line = max(line, here.line) if here.file == file else line
    for _, it in node.children():
        line = _last(it, file, line)
    return line


STATEMENTS = {"Compound", "EmptyStatement", "If", "While", "DoWhile", "For", "Switch", "Break", "Continue", "Return"}


def analysed(source: Source, faults: Faults) -> Optional[Program]:
    """Returns the typed program of a file, or None if it is refused."""
    program = Analysis(source, faults).program()
    return None if faults.is_refused else program

