"""Wrong compilers, each made by a change of a copy of `melc`, are found: by answers that gcc does not give, by the stack checker, by code that is
promised, by a line of C, or by a program that is not refused.

It needs pytest, pycparser, gcc, and the programs, built by tools/build or by `rt ci`.
"""

import json
import pathlib
import re
import shutil
import subprocess
import sys

import melc_host
import melc_programs
import pytest

pytestmark = pytest.mark.skipif(shutil.which("gcc") is None, reason="gcc is not installed")
TOP = pathlib.Path(__file__).resolve().parent.parent.parent
FRONT = melc_programs.FRONT.replace("DWORD longs[2];", "DWORD longs[2];\nBYTE big[300] = { 9 };\nWORD last = 0x00FF;\nBYTE after;")
# What each INS does; the answer is what `given` and the static bytes hold then.
WILD = ["if (P1 + P2 > 300) sb = 1;", "if ((BYTE)(P1 + P2) < last) sb = 2; else sb = 8;", "sb = sw; small[1] = sd;", "if (P1 + P2 < sw) sb = 4; if (P1 - sb + 300 > sw) sb = 5;",
        "for (BYTE i = 0; i < 3; i++) { BYTE j = P1; if (j == i) break; sb += j; if (sb == 9) continue; sb++; }",
        "BYTE x = 1; WORD y = 3; sw = (x + P1) * 3 + (P2 - y + 5000);", "if (P1 == 1) ExitSW(0x6A80); { BYTE j = 1; if (P2 == j) ExitSW(0x6A80); } if (P1 == 3) ExitSW(0x6A80);",
        "for (BYTE i = 0; i < 4; i++) { switch (i) { case 1: continue; default: sb += i; } sb++; }", "switch (P1) { case 1: sb = 1; case 2: sw++; break; default: sb = 3; case 5: sw += 2; }",
        "switch (P1) { case 1: sb = 1; break; default: sb = 9; break; case 2: sb = 2; }", "switch (P1) { case 256: sb = 1; break; case 2: sb = 2; break; case 258: sb = 7; }",
        "memcpy(&points[1], &points[0], 6);", "WORD x = P1; BYTE z = P2; sw -= x; sb -= z;", "big[P1 + 40] = P2;", "if (memcmp(bytes, given.more, 3) < 0) sb = 1; else sb = 2;",
        "words[2] = 0x00FF; words[P1 & 3]++; last++;", "sb = one.at[1].y >> 8; bytes[1] = points[2].y >> 8;", "if (touched(P1) < 5) sb = 3; if (touched(P1) >= 0) sb++;", "sw = later(P1, P2);",
        "pw = 5; any.half = 7; sb = any.bytes[1];"]
WITNESS = FRONT + """static BYTE touched(BYTE x) { after++; return x & 3; }
static WORD later(BYTE x, WORD y) { if (x > 3) return y + x; WORD z = 7; return x * 3 + y + z; }
void main(void)
{
    switch (INS) {
""" + "".join(f"    case {number}: {{ {text} }} break;\n" for number, text in enumerate(WILD, 1)) + "    }\n    reply.sum = sd;\n    ExitLa(sizeof reply);\n}\n"
ROUTINE = FRONT + """static WORD changed(BYTE x, WORD y) { x++; y += x; return y; }
void main(void)
{
    sw = changed(P1, sb);
    WORD kept = changed(P2, sw);
    last = kept;
    ExitLa(4);
}
"""
REFUSED = ["if (P1 - P2 < 5) sb = 1;", "sb = P1 / 3;", "sb = P1 * P2;"]
COMMANDS = [f"80{ins:02X}{p1:02X}{p2:02X}05{more}0B" for ins in range(1, len(WILD) + 1) for p1, p2, more in
            ((1, 2, "0102030405"), (2, 1, "0102040506"), (200, 150, "FF02030405"), (255, 255, "0001020304"), (0, 3, "C8C8C8C8C8"), (3, 0, "0102030400"))]
# The change: its file, what it replaces and by what, in pairs.
WRONG = {
    "a sum wraps before it is compared": ("selection", "count = bytes_for(high if low >= 0 else high - low)", "count = min(1, bytes_for(high))"),
    "a sum that is cast does not wrap": ("selection", "while isinstance(expr, Convert) and min(expr.type.size, 4) >= count:", "while isinstance(expr, Convert):"),
    "a difference is compared as unsigned": ("expressions", "                if it.low < 0:\n                    raise Refused(it.at, f\"this may be negative, and its sign counts in `{op}`",
                                             "                if False:\n                    raise Refused(it.at, f\"this may be negative, and its sign counts in `{op}`"),
    "low bytes are taken from the front": ("selection", "self.spot(expr.place).later(more), count, count)", "self.spot(expr.place), count, count)"),
    "operands are exchanged, the condition is not": ("selection", "            return CONDITIONS[FLIPPED[op]]", "            return CONDITIONS[op]"),
    "a pop is left out": ("lowering", "        self.drop(height - target.height)\n", ""),
    "a local moves while something is pushed": ("selection", 'return Spot("LB", self.homes[it] + place.offset)', 'return Spot("DT", self.homes[it] + place.offset - self.most)'),
    "an exit is shared between heights": ("layout", "key = (target.end.code.text, target.height, target.routine)", "key = (target.end.code.text, 0, target.routine)"),
    "continue leaves the switch alone": ("lowering", "self.contexts[-1].around.append(Around(end, None))", "self.contexts[-1].around.append(Around(end, end))"),
    "a fall through jumps": ("lowering", "            if place in places:\n                self.start(places[place])", "            if place in places:\n                self._to(end)\n                self.start(places[place])"),
    "a default in the middle ends the cases": ("lowering", "        for number, place, at in it.cases:\n", "        for number, place, at in [one for one in it.cases if it.default is None or one[1] <= it.default]:\n"),
    "a case matches modulo": ("lowering", "            if not it.value.low <= number <= it.value.high:\n                continue\n", "            number %= 1 << 8 * count\n"),
    "a struct is copied in two writes": ("lowering", "            self.bytes_of(it.source, count)\n            self.at_spot(\"STORE\", self.spot(it.to), count, -count)",
                                         "            for at, size in ((0, 1), (1, count - 1)):\n                self.at_spot(\"LOAD\", self.spot(it.source).later(at), size, size)\n                self.at_spot(\"STORE\", self.spot(it.to).later(at), size, -size)"),
    "a copy writes before it has read all": ("lowering", "            self.bytes_of(it.source, count)\n            self.at_spot(\"STORE\", self.spot(it.to), count, -count)",
                                             "            for at in range(count):\n                self.at_spot(\"LOAD\", self.spot(it.source).later(at), 1, 1)\n                self.at_spot(\"STORE\", self.spot(it.to).later(at), 1, -1)"),
    "a local counts as the top that is not": ("selection", " + expr.place.offset + count == self.height)", " + expr.place.offset + count <= self.height)"),
    "an index of two bytes is cut": ("selection", "if index.high <= 255 and size <= LONGEST:", "if size <= LONGEST:"),
    "the order of memcmp is turned": ("selection", "        self.drop(self.height - before)\n        return CONDITIONS[expr.op]", "        self.drop(self.height - before)\n        return CONDITIONS[FLIPPED[expr.op]]"),
    "++ of an element forgets the carry": ("selection", '        if value == 1:\n            self.at_top("INCN", count)', '        if value == 1:\n            self.at_top("INCN", 1)'),
    "a parameter is written below LB": ("lowering", "            if it.is_written:", "            if False:"),
    "a result lies over a local": ("lowering", 'spot, count = Spot("LB", context.slot), context.count', 'spot, count = Spot("LB", context.slot + 1), context.count'),
    "/ of what is no power of two": ("expressions", "or right.low <= 0 or right.low & right.low - 1:", "or right.low <= 0:"),
    ">> 8 takes a neighbour": ("selection", "self.spot(left.place).later(left.type.size - need), need - places", "self.spot(left.place).later(left.type.size - need - 1), need - places"),
    "the caller's line for the callee's code": ("lowering", '        self.at = it.at\n        getattr(self, "_"', '        self.at = it.at if len(self.contexts) < 2 else self.at\n        getattr(self, "_"'),
    "an initial value is lost": ("text", 'if it.initial is not None else ""', 'if it.initial is not None and all(one.initial is not None for one in program.variables if one.memory == "static") else ""'),
    "a public variable lies elsewhere": ("analysis", 'self.places["public"] = int(found[2])', 'self.places["public"] = max(int(found[2]), self.places["public"])'),
    "a call in a condition is left out": ("selection", "        elif expr.value is not None:\n            self.effects(expr)\n", "        elif expr.value is not None:\n"),
    "a draft where an error was written": ("analysis", "return None if faults.is_refused else program", "return program"),
}
RUN = """import json, sys
sys.path.insert(0, sys.argv[1])
from melc.main import compiled
made = []
for path in sys.argv[2:]:
    try:
        made.append(compiled(path, path.rpartition("/")[2][:-2], False)[1])
    except Exception as why:
        made.append("crash " + repr(why))
print(json.dumps(made))
"""


def drafts(folder, paths):
    """What the compiler of a folder makes of files: drafts, None of what it refuses."""
    done = subprocess.run([sys.executable, "-B", "-c", RUN, str(folder), *map(str, paths)], stdout=subprocess.PIPE, check=True)
    return json.loads(done.stdout)


@pytest.fixture(name="known", scope="module")
def _known(tmp_path_factory):
    """The files, and what gcc says of the two that are not refused."""
    folder = tmp_path_factory.mktemp("witness")
    texts = {"witness": WITNESS, "routine": ROUTINE.replace("03 77", "03 78"), **{f"refused{number}": FRONT + f"void main(void) {{ {text} }}\n" for number, text in enumerate(REFUSED)}}
    for name, text in texts.items():
        (folder / f"{name}.c").write_text(text, encoding="utf-8")
    paths = [folder / f"{name}.c" for name in texts]
    native = melc_host.on_host([(paths[0], COMMANDS), (paths[1], COMMANDS[:6])], folder)
    return [*paths, TOP / "examples" / "badge.c"], native


def wrongs(made, native):
    """What is wrong with what a compiler made; nothing of a right one."""
    witness, routine, *refused, badge = made
    found = ["a program is not refused" for it in refused if it is not None]
    if None in (witness, routine, badge) or any(it.startswith("crash") for it in (witness, routine, badge)):
        return [*found, "a program is refused"]
    refused = melc_host.verdicts([witness, routine, badge])
    if refused:
        return [*found, *refused]
    card = melc_host.on_card([(witness, "witness", COMMANDS), (routine, "routine", COMMANDS[:6])])
    found += [f"{command}: {one} {other}" for commands, left, right in zip((COMMANDS, COMMANDS[:6]), native, card)
              for command, one, other in zip(commands, left, right) if one != other]
    if not re.search(r"LOAD points,6 .*\n +STORE points\+3,6 ", witness):
        found.append("a copy is not one load and one store")
    if not re.search(r"DECN tries +; badge\.c:22 ", badge) or not re.search(r"INCN opened +; badge\.c:39 ", badge):
        found.append("code has another line of C")
    return found


def test_the_compiler_itself_is_right(known):
    paths, native = known
    assert not wrongs(drafts(TOP / "tools", paths), native)


@pytest.mark.parametrize("name", WRONG)
def test_a_wrong_compiler_is_found(tmp_path, known, name):
    paths, native = known
    module, old, new = WRONG[name]
    shutil.copytree(TOP / "tools" / "melc", tmp_path / "melc", ignore=shutil.ignore_patterns("__pycache__"))
    file = tmp_path / "melc" / f"{module}.py"
    text = file.read_text(encoding="utf-8")
    assert text.count(old) == 1, f"the line of {name} is there {text.count(old)} times"
    file.write_text(text.replace(old, new), encoding="utf-8")
    assert wrongs(drafts(tmp_path, paths), native)
