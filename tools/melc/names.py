"""Names and types: takes declarations of pycparser, and returns the kinds, constants, variables and functions that they name."""

from __future__ import annotations

import re
from typing import Callable, Dict, List, Optional, Tuple

from pycparser import c_ast

from .faults import At, Refused, at_of
from .kinds import U8, U16, U32, VOID, Array, Kind, Number, Record
from .tree import Function, Variable

BASES = {"unsigned char": U8, "char unsigned": U8, "unsigned short": U16, "unsigned short int": U16, "short unsigned int": U16, "short unsigned": U16,
         "unsigned int": U32, "unsigned": U32, "void": VOID}
HEADER = {"CLA": (-13, U8), "INS": (-12, U8), "P1": (-11, U8), "P2": (-10, U8), "P3": (-9, U8), "Lc": (-8, U16), "Le": (-6, U16), "La": (-4, U16),
          "SW": (-2, U16)}
RESERVED = {"SB", "ST", "DB", "LB", "DT", "PB", "PT", "EQ", "LT", "LE", "GT", "GE", "NE", "ALL", *HEADER}
LONGEST = 32  # of a name in a draft
MOST = 8192   # bytes of any object, as a bound for counts


class Names:
    """All names of a file. `constant` evaluates a constant expression of pycparser."""

    def __init__(self) -> None:
        self.typedefs: Dict[str, Kind] = {}
        self.tags: Dict[str, Record] = {}
        self.constants: Dict[str, int] = {}
        self.variables: Dict[str, Variable] = {}
        self.functions: Dict[str, Function] = {}
        self.locals: List[Dict[str, Variable]] = []
        self.library: "frozenset[str]" = frozenset()
        # Nodes of structs, which several names of one declaration share.
        self._records: Dict[int, Tuple[c_ast.Node, Record]] = {}
        self.constant: Callable[[c_ast.Node], int] = lambda _: 0
        for name, (offset, kind) in HEADER.items():
            self.variables[name] = Variable(name, kind, "header", At("", 0), offset)

    # ---- names

    def is_taken(self, name: str) -> bool:
        """Whether a name means something already."""
        return (name in self.typedefs or name in self.constants or name in self.variables or name in self.functions or name in self.library
                or any(name in it for it in self.locals))

    def due(self, name: str, at: At, is_variable: bool = True) -> None:
        """Refuses a name that a declaration may not have."""
        if is_variable and name in RESERVED:
            raise Refused(at, f"`{name}` is a word of drafts and no name of a variable")
        if len(name) > LONGEST and is_variable:
            raise Refused(at, f"`{name}` is longer than {LONGEST} characters")
        if not re.fullmatch(r"[A-Za-z_][A-Za-z0-9_]*", name):
            raise Refused(at, f"`{name}` has other characters than letters, digits and `_`")
        if name in self.library:
            raise Refused(at, f"`{name}` is a call of the card: choose another name")
        if any(name in it for it in self.locals[-1:]):
            raise Refused(at, f"`{name}` is declared twice")
        if self.is_taken(name):
            raise Refused(at, f"`{name}` means something else already: a name means one thing in a file" if self.locals
                          else f"`{name}` is declared twice")

    def variable(self, name: str) -> Optional[Variable]:
        """Returns a variable that can be seen, a local first."""
        for scope in reversed(self.locals):
            if name in scope:
                return scope[name]
        return self.variables.get(name)

    # ---- types

    def kind(self, node: c_ast.Node, at: At) -> Kind:
        """Returns the kind of a type of pycparser; `at` is where it stands."""
        at = at_of(node, at)
        if isinstance(node, (c_ast.Typename, c_ast.TypeDecl)):
            if "volatile" in (getattr(node, "quals", None) or []):
                raise Refused(at, "`volatile` is not taken: leave it out, all memory is read when it is named")
            return self.kind(node.type, at)
        if isinstance(node, c_ast.IdentifierType):
            return self._base(node.names, at)
        if isinstance(node, c_ast.ArrayDecl):
            return self._array(node, at)
        if isinstance(node, (c_ast.Struct, c_ast.Union)):
            return self._record(node, at)
        if isinstance(node, c_ast.Enum):
            self._enum(node, at)
            raise Refused(at, "an object of an enum is an `int` in C: declare it BYTE, WORD or DWORD")
        if isinstance(node, c_ast.PtrDecl):
            raise Refused(at, "there are no pointers: take an array and an index")
        if isinstance(node, c_ast.FuncDecl):
            raise Refused(at, "a function is declared at the top of a file")
        raise Refused(at, "this type is not taken")

    def _base(self, names: List[str], at: At) -> Kind:
        text = " ".join(names)
        if text in self.typedefs:
            return self.typedefs[text]
        if text in BASES:
            return BASES[text]
        raise Refused(at, f"there are no objects of type `{text}`: take BYTE, WORD or DWORD")

    def _array(self, node: c_ast.ArrayDecl, at: At) -> Kind:
        if node.dim is None:
            raise Refused(at, "an array has a number of elements: write it")
        count, element = self.constant(node.dim), self.kind(node.type, at)
        if element is VOID:
            raise Refused(at, "there are no elements of type `void`")
        if not 1 <= count <= MOST:
            raise Refused(at, f"an array has 1 to {MOST} elements, not {count}")
        if count * element.size > MOST:
            raise Refused(at, f"an object has at most {MOST} bytes")
        self._is_whole(element, at)
        return Array(element, count)

    def _is_whole(self, kind: Kind, at: At) -> None:
        if isinstance(kind, Record) and not kind.size:
            raise Refused(at, f"the members of `{kind.name}` are not declared above")

    def _record(self, node: c_ast.Node, at: At) -> Record:
        if id(node) not in self._records:
            self._records[id(node)] = (node, self._declared(node, at))
        return self._records[id(node)][1]

    def _declared(self, node: c_ast.Node, at: At) -> Record:
        is_union = isinstance(node, c_ast.Union)
        name = node.name or ""
        found = self.tags.get(name) if name else None
        if found is None:
            found = Record(name or "this struct", is_union)
            if name:
                self.tags[name] = found
        elif found.is_union != is_union:
            raise Refused(at, f"`{name}` is a struct and a union")
        if node.decls is None:
            return found
        if found.size:
            raise Refused(at, f"`{name}` is declared twice")
        offset = size = 0
        for it in node.decls:
            where = at_of(it, at)
            if not isinstance(it, c_ast.Decl):
                raise Refused(where, "this is no member")
            if it.bitsize is not None:
                raise Refused(where, "there are no bit fields: take a BYTE and masks")
            if it.name is None:
                raise Refused(where, "a member has a name")
            if "const" in it.quals:
                raise Refused(where, "a member is not `const`: the whole object may be")
            kind = self.kind(it.type, where)
            self._is_object(kind, where)
            if it.name in found.members:
                raise Refused(where, f"`{it.name}` is declared twice")
            found.members[it.name] = (0 if is_union else offset, kind)
            offset, size = offset + kind.size, max(size, kind.size)
            if offset > MOST:
                raise Refused(where, f"an object has at most {MOST} bytes")
        if not found.members:
            raise Refused(at, "a struct has a member")
        found.size = size if is_union else offset
        return found

    def _is_object(self, kind: Kind, at: At) -> None:
        if kind is VOID:
            raise Refused(at, "there are no objects of type `void`")
        self._is_whole(kind, at)

    def object(self, node: c_ast.Node, at: At) -> Kind:
        """Returns the kind of an object that is declared."""
        kind = self.kind(node, at)
        self._is_object(kind, at)
        return kind

    def _enum(self, node: c_ast.Enum, at: At) -> None:
        following = 0
        for it in (node.values.enumerators if node.values is not None else []):
            where = at_of(it, at)
            value = self.constant(it.value) if it.value is not None else following
            if not -0x80000000 <= value <= 0x7FFFFFFF:
                raise Refused(where, f"`{it.name}` is no value of an `int`")
            self.due(it.name, where, False)
            self.constants[it.name] = value
            following = value + 1

    def enum(self, node: c_ast.Node, at: At) -> bool:
        """Declares the constants of a type that is an enum; returns whether it is one."""
        inner = node.type if isinstance(node, (c_ast.TypeDecl, c_ast.Typename)) else node
        if not isinstance(inner, c_ast.Enum):
            return False
        self._enum(inner, at)
        return True

    def scalar(self, node: c_ast.Node, at: At, what: str, is_void: bool = False) -> Number:
        """Returns the type of a parameter or a result."""
        kind = self.kind(node, at)
        if kind is VOID and is_void:
            return VOID
        if not isinstance(kind, Number) or kind is VOID:
            raise Refused(at, f"{what} is BYTE, WORD or DWORD" + (" or void" if is_void else ": share an array or a struct by its name"))
        return kind


def inner(node: c_ast.Node) -> Tuple[c_ast.Node, List[str]]:
    """Returns the type below arrays, and its qualifiers."""
    while isinstance(node, c_ast.ArrayDecl):
        node = node.type
    return node, list(getattr(node, "quals", None) or [])
