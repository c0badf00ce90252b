"""Random programs of the subset: all sizes, nested structs, switches, loops with a bound, calls inlined and not.

`pick(n)` is a number from 0 to n - 1: of Hypothesis, which shrinks by it, or of a generator of random numbers. 0 is the simplest choice.
"""

FRONT = """#include <multos.h>
#pragma attribute("aid", "A0 00 00 03 77")
enum { FIRST, SECOND = 5, THIRD };
struct point { BYTE x; WORD y; };
struct row { BYTE kind; struct point at[2]; DWORD sum; };
union any { BYTE bytes[4]; DWORD number; WORD half; };
#pragma melstatic
BYTE sb = 7;
WORD sw = 0x1234;
DWORD sd = 0x89ABCDEF;
BYTE bytes[8] = { 1, 2, 3, 200, 255 };
WORD words[4] = { 0xFFFF, 1, 256, 0x8000 };
struct row one = { 3, { { 4, 5 }, { 6, 700 } }, 80000 };
struct point points[4] = { { 1, 2 }, { 3, 4 }, { 255, 65535 } };
const WORD table[4] = { 10, 2000, 30000, 60000 };
DWORD longs[2];
#pragma melsession
BYTE hb;
WORD hw;
struct point home;
BYTE small[4];
#pragma melpublic 0
struct { BYTE b; WORD w; DWORD d; BYTE more[5]; } given;
#pragma melpublic 0
struct row reply;
#pragma melpublic 20
union any any;
#pragma melpublic
WORD pw;
"""
NUMBERS = [("sb", 1), ("sw", 2), ("sd", 4), ("given.b", 1), ("given.w", 2), ("given.d", 4), ("hb", 1), ("hw", 2), ("home.x", 1), ("home.y", 2),
           ("one.kind", 1), ("one.at[1].y", 2), ("one.at[0].x", 1), ("one.sum", 4), ("bytes[3]", 1), ("words[2]", 2), ("points[2].y", 2), ("longs[1]", 4),
           ("pw", 2), ("any.number", 4), ("any.half", 2), ("any.bytes[1]", 1), ("small[2]", 1), ("reply.sum", 4)]
HEADER = [("P1", 1), ("P2", 1), ("INS", 1), ("Lc", 2), ("P3", 1), ("table[3]", 2), ("CLA", 1)]
INDEXED = [("bytes[{}]", 8, 1), ("words[{}]", 4, 2), ("points[{}].x", 4, 1), ("points[{}].y", 4, 2), ("longs[{}]", 2, 4), ("small[{}]", 4, 1),
           ("one.at[{}].y", 2, 2), ("given.more[{}]", 4, 1)]
BLOCKS = [("bytes", 8), ("&one", 11), ("&points[1]", 3), ("small", 4), ("&given", 12), ("&reply", 11), ("given.more", 5), ("&home", 3), ("any.bytes", 4),
          ("&one.at[1]", 3)]
RECORDS = ["one.at[0]", "one.at[1]", "points[0]", "points[3]", "home", "reply.at[1]", "points[{}]", "reply.at[{}]"]
CONSTANTS = ["0", "1", "2", "3", "7", "8", "127", "128", "255", "256", "257", "0x1234", "32767", "32768", "65535", "0x10000U", "0x7FFFFFFFU",
             "0x80000000U", "0xFFFFFFFF", "0x00FF00FFU", "FIRST", "THIRD", "sizeof given", "'A'"]
TYPES = {1: "BYTE", 2: "WORD", 4: "DWORD"}
COMPARED = ["==", "!=", "<", "<=", ">", ">="]


class Maker:
    """A program that is being made."""

    def __init__(self, pick):
        self.pick = pick
        self.names = 0
        self.locals = []
        self.fixed = []
        self.functions = []
        self.is_wild = pick(2) == 1
        self.loops = 0
        self.is_pure = False
        self.result = 0

    def of(self, choices):
        """One of some choices."""
        return choices[self.pick(len(choices))]

    def name(self, front):
        """A new name."""
        self.names += 1
        return f"{front}{self.names}"

    # ---- expressions

    def index(self, count, depth):
        """An index that is less than a power of two."""
        if self.pick(3) == 0:
            return str(self.pick(count))
        if count == 4 and self.pick(6) == 1:
            return f"(WORD)({self.number(depth)}) & {count - 1}"
        return f"({self.modular(depth)}) & {count - 1}" if self.pick(2) else f"{self.of(NUMBERS)[0]} % {count}"

    def memory(self, depth, is_written=False):
        """A number in memory, with its bytes."""
        which = self.pick(5)
        here = self.locals if is_written else [*self.locals, *self.fixed]
        if which == 1 and here:
            return self.of(here)
        if which == 2 and depth > 0 and (self.is_wild or not is_written):
            text, count, size = self.of(INDEXED)
            return text.format(self.index(count, depth - 1)), size
        if which == 3 and not is_written:
            return self.of(HEADER)
        return self.of(NUMBERS)

    def number(self, depth):
        """An expression that is not negative."""
        if depth <= 0:
            return self.of(CONSTANTS) if self.pick(3) == 1 else self.memory(0)[0]
        which, less = self.pick(16), depth - 1
        if which == 0:
            return self.memory(depth)[0]
        if which in (1, 2):
            return f"({self.number(less)} {self.of(['+', '&', '|', '^'])} {self.number(less)})"
        if which == 3:
            return f"({self.of(['BYTE', 'WORD', 'DWORD'])})({self.modular(less)})"
        if which == 4:
            return f"({self.modular(less)} & {self.of(['0xFF', '7', '0x0F0F', '0x7FFF', '0xFF00', '0x80U'])})"
        if which == 5:
            return f"((WORD)({self.number(less)}) << {self.pick(16)})" if self.pick(2) else f"((DWORD)({self.number(less)}) << {self.pick(32)})"
        if which == 6:
            return f"({self.number(less)} >> {self.of([1, 2, 3, 4, 7, 8, 9, 12, 15, 16, 17, 24, 31])})"
        if which == 7:
            factor = self.of([2, 3, 5, 10, 16, 100, 255, 256, 257, 1000])
            return f"((WORD)({self.number(less)}) * {factor})" if self.pick(2) else f"({factor} * (DWORD)({self.number(less)}))"
        if which == 8:
            return f"({self.number(less)} {self.of(['/', '%'])} {self.of([1, 2, 4, 8, 32, 256, 1024])})"
        if which == 9:
            return f"({self.condition(less)} ? {self.number(less)} : {self.number(less)})"
        if which == 10:
            return f"({self.condition(less)})"
        if which == 11:
            return f"(WORD)~({self.number(less)})"
        if which in (12, 13):
            pure = [it for it in self.functions if it[3]]
            if pure:
                return self.called(self.of(pure), less)
        if which == 14:
            return f"({self.number(less)} {self.of(['|', '&', '+', '-' if self.pick(4) == 3 else '^'])} {self.of(CONSTANTS)})"
        return self.memory(depth)[0]

    def modular(self, depth):
        """An expression that may be negative."""
        which = self.pick(6)
        if which == 1:
            return f"{self.number(depth)} - {self.number(depth - 1)}"
        if which == 2:
            return f"-({self.number(depth - 1)} & 0xFFFF)" if self.pick(2) else f"~{self.memory(depth)[0]}"
        if which == 3:
            return f"{self.memory(depth)[0]} - {self.memory(depth)[0]} + {self.number(depth - 1)}"
        if which == 4 and depth > 0:
            return f"({self.condition(depth - 1)} ? {self.number(depth - 1)} : {self.memory(depth)[0]} - 3)"
        return self.number(depth)

    def condition(self, depth):
        """A condition."""
        which, less = self.pick(10), depth - 1
        if which in (0, 1, 2) or depth <= 0:
            if self.pick(3) == 0:
                return f"{self.memory(depth)[0]} {self.of(COMPARED)} {self.of(CONSTANTS)}"
            return f"{self.memory(depth)[0]} {self.of(COMPARED)} {self.memory(depth)[0]}"
        if which == 3:
            return f"{self.number(less)} {self.of(COMPARED)} {self.number(less)}"
        if which == 4:
            return f"{self.modular(less)} {self.of(COMPARED[:2])} {self.modular(less)}"
        if which == 5:
            return f"({self.condition(less)} {self.of(['&&', '||'])} {self.condition(less)})"
        if which == 6:
            return f"!({self.condition(less)})" if self.pick(2) else f"!{self.memory(depth)[0]}"
        if which == 7:
            return f"({self.memory(depth)[0]} & {self.of(['1', '0x80', '0x8000', '0x0180', '0xFF', '0x80000000U'])})" + self.of(["", " != 0", " == 0"])
        if which == 8:
            (one, room), (other, wide) = self.of(BLOCKS), self.of(BLOCKS)
            return f"memcmp({one}, {other}, {1 + self.pick(min(room, wide))}) {self.of(COMPARED)} 0"
        return f"CheckCase({1 + self.pick(4)})" if self.pick(4) == 0 else self.number(less)

    def called(self, function, depth):
        """A call."""
        name, parameters, _, _ = function
        return f"{name}({', '.join(self.modular(depth - 1) for _ in parameters)})"

    # ---- statements

    def body(self, depth, count):
        """Some statements, as lines."""
        kept, fixed = list(self.locals), list(self.fixed)
        lines = [line for _ in range(count) for line in self.statement(depth)]
        self.locals, self.fixed = kept, fixed
        return [f"    {line}" for line in lines]

    def braced(self, front, depth):
        """A statement with a block."""
        return [f"{front} {{", *self.body(depth, 1 + self.pick(3)), "}"]

    def statement(self, depth):
        """A statement, as lines."""
        which = self.pick(20)
        if which in (0, 1, 2, 3):
            return [f"{self.target()} = {self.modular(2 + self.pick(2))};"]
        if which in (4, 5):
            text = self.target()
            op = self.of(["+=", "-=", "&=", "|=", "^=", "<<=", ">>=", "*="])
            value = str(1 + self.pick(15)) if op in ("<<=", ">>=", "*=") and self.pick(9) < 9 else self.modular(2)
            return [f"{text} {op} {value};"]
        if which == 6:
            return [f"{self.target()}{self.of(['++', '--'])};"]
        if which == 7:
            return self.declared()
        if which == 8 and depth > 0:
            lines = self.braced(f"if ({self.condition(2)})", depth - 1)
            return lines + self.braced("else", depth - 1) if self.pick(2) else lines
        if which == 9 and depth > 0:
            return self.loop(depth)
        if which == 10 and depth > 0:
            return self.switch(depth)
        if which == 11 and not self.is_pure:
            others = [it for it in self.functions if not it[3]]
            if others:
                it = self.of(others)
                return [f"{self.target()} = {self.called(it, 2)};" if it[2] and self.pick(2) and self.names else f"{self.called(it, 2)};"]
        if which == 12 and not self.is_pure:
            (one, room), (other, wide) = self.of(BLOCKS), self.of(BLOCKS)
            count = 1 + self.pick(min(room, wide))
            return [f"memcpy({one}, {other}, {count});" if self.pick(3) else f"memset({one}, {self.of([0, 255])}, {count});"]
        if which == 13 and not self.is_pure:
            to, source = (it.format(self.index(2, 1)) if "{" in it else it for it in (self.of(RECORDS if self.is_wild else RECORDS[:6]), self.of(RECORDS)))
            return [f"{to} = {source};"]
        if which == 14 and self.loops:
            return [f"if ({self.condition(1)}) {self.of(['break', 'continue'])};"]
        if which == 15 and not self.is_pure:
            return [f"if ({self.condition(1)}) {self.exit()};"]
        if which == 16 and self.result is not None:
            return [f"if ({self.condition(1)}) return{' ' + self.modular(1) if self.result else ''};"]
        if which == 17 and not self.is_pure:
            return [self.of(["BeginTransaction();", "CommitTransaction();", "AbortTransaction();", "SetSW(0x9001);", "SetLa(3);"])]
        if which == 18 and self.is_wild and not self.is_pure:
            (one, room), (other, wide) = self.of(BLOCKS), self.of(BLOCKS)
            return [f"multosMemoryCopy(1 + (P1 & {(min(room, wide).bit_length() > 3) * 3 or 1}), {one}, {other});"]
        return [f"{self.target()} = {self.number(2)};"]

    def exit(self):
        """An exit."""
        return self.of(["ExitSW(0x6700)", "ExitSW(0x6985)", "ExitSWLa(0x6300, 2)", "ExitLa(4)", "Exit()", "ExitSW(0x6A00 | P1)", f"ExitSW((WORD)({self.number(1)}))",
                        "ExitSW(0x6700)"])

    def target(self):
        """What is written."""
        if self.is_pure:
            return self.of(self.locals)[0]
        return self.memory(2, True)[0]

    def first_local(self):
        """The local that each pure function has."""
        return "own"

    def declared(self):
        """The declaration of a local."""
        size, name = self.of([1, 2, 4]), self.name("l")
        which = self.pick(6)
        if which == 1:
            lines = [f"{TYPES[size]} {name};"]
        elif which == 2:
            lines = [f"struct point {name} = {self.of(['{ 9, 1000 }', 'home', 'points[1]', 'points[P1 & 3]', 'one.at[1]'])};"]
            self.locals += [(f"{name}.x", 1), (f"{name}.y", 2)]
            return lines
        elif which == 3:
            lines = [f"BYTE {name}[4]" + self.of([";", " = { 1, 2 };", ' = "ab";'])]
            self.locals += [(f"{name}[1]", 1), (f"{name}[3]", 1)]
            if self.is_wild:
                self.locals.append((f"{name}[P2 & 3]", 1))
            else:
                self.fixed.append((f"{name}[P2 & 3]", 1))
            return lines
        else:
            lines = [f"{TYPES[size]} {name} = {self.modular(2)};"]
        self.locals.append((name, size))
        return lines

    def loop(self, depth):
        """A loop with a bound."""
        name, count, which = self.name("i"), 1 + self.pick(5), self.pick(4)
        kept, fixed = list(self.locals), list(self.fixed)
        self.loops += 1
        self.fixed.append((name, 1))
        if which < 2:
            step = self.of([f"{name}++", f"{name} += 1", f"{name}++, sb++"]) if not self.is_pure else f"{name}++"
            lines = self.braced(f"for ({self.of(['BYTE', 'WORD'])} {name} = {self.of(['0', '0', 'P1 & 3'])}; {name} < {count}; {step})", depth - 1)
        elif which == 2:
            inner = self.body(depth - 1, 1 + self.pick(2))
            lines = [f"BYTE {name} = {self.pick(3)};", f"while ({name} < {count}) {{", f"    {name}++;", *inner, "}"]
        else:
            inner = self.body(depth - 1, 1 + self.pick(2))
            lines = [f"BYTE {name};", "do {", f"    {name}++;", *inner, f"}} while ({name} < {count}{self.of(['', ' && P2 != 3', ' && sw != 5'])});"]
        self.loops -= 1
        self.locals, self.fixed = kept, fixed
        return ["{", *(f"    {line}" for line in lines), "}"]

    def switch(self, depth):
        """A switch."""
        text = self.of(["P1", "sb", "sw", "sd", f"{self.number(1)}", f"{self.number(2)} & 7", f"(BYTE)({self.modular(1)})"])
        cases = [str(it) for it in dict.fromkeys(self.of([0, 1, 2, 3, 5, 7, 255, 256, 260, 0x1234, 65536]) for _ in range(1 + self.pick(4)))]
        lines, at = [f"switch ({text}) {{"], self.pick(len(cases) + 2)
        for place, case in enumerate(cases):
            if place == at:
                lines += self.case("default", depth)
            lines += self.case(f"case {case}", depth)
        return [*lines, *(self.case("default", depth) if at == len(cases) else []), "}"]

    def case(self, front, depth):
        """A case: one that falls through, too."""
        kept = self.loops
        self.loops = 0 if not kept else kept
        inner = ["    ;"] if self.pick(5) == 4 else ["    {", *(f"    {line}" for line in self.body(depth - 1, 1 + self.pick(2))), "    }"]
        self.loops = kept
        return [f"{front}:", *inner, *(["    break;"] if self.pick(3) < 2 else [])]

    # ---- functions

    def function(self, is_pure):
        """A function; a pure one writes its own locals alone."""
        parameters = [(self.name("p"), self.of([1, 2, 4])) for _ in range(self.pick(3))]
        size = self.of([1, 2, 4]) if is_pure else self.of([0, 1, 2, 4])
        self.is_pure, self.result = is_pure, size
        own = self.name("own")
        self.first_local = lambda: own
        self.locals, self.fixed = [(own, 2), *(parameters if self.pick(2) else [])], [it for it in parameters]
        name = self.name("f")
        head = f"static {TYPES.get(size, 'void')} {name}({', '.join(f'{TYPES[it]} {text}' for text, it in parameters) or 'void'})"
        lines = [head, "{", f"    WORD {own} = 1;", *self.body(2, 1 + self.pick(3))]
        lines += [f"    return {self.modular(2)};"] if size else []
        self.functions.append((name, parameters, size, is_pure))
        self.is_pure, self.result, self.locals, self.fixed = False, 0, [], []
        return [*lines, "}"]

    def program(self):
        """The whole program."""
        lines = []
        for _ in range(self.pick(4)):
            lines += self.function(self.pick(2) == 0)
        self.result = 0
        lines += ["void main(void)", "{", *self.body(3, 2 + self.pick(5))]
        lines += ["    reply.sum = sd + sw;", "    reply.at[1].y = words[1];", "    ExitLa(sizeof reply);", "}"]
        return FRONT + "\n".join(lines) + "\n"


def commands(pick, count=6):
    """Random commands, with `select` between some."""
    found = []
    for _ in range(count):
        if pick(6) == 5:
            found.append("select")
        head = "80" + "".join(f"{[0, 1, 2, 3, 5, 7, 64, 127, 128, 200, 255, pick(256)][pick(12)]:02X}" for _ in range(3))
        data = "".join(f"{[0, 1, 2, 127, 128, 255, pick(256)][pick(7)]:02X}" for _ in range(pick(14)))
        if not data:
            found.append(head + ["", "00", "20"][pick(3)])
        else:
            found.append(head + f"{len(data) // 2:02X}" + data + ["", "00", "0B"][pick(3)])
    return found
