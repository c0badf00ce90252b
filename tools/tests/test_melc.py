"""`melc`: what it refuses, the code that it promises, lines of C, and its words.

It needs pytest, pycparser, `cpp` and the programs, built by tools/build or by `rt ci`.
"""

import pathlib
import re
import subprocess
import sys

import melc_host
import pytest
from card import program_path
from melc import lines
from melc.main import compiled

TOP = pathlib.Path(__file__).resolve().parent.parent.parent
MELC = TOP / "tools" / "melc" / "melc"
EXAMPLES = TOP / "examples"
FRONT = """#include <multos.h>
#pragma attribute("aid", "A0 00 00 03 02")
#pragma melstatic
BYTE b, c, n, a[4];
WORD w, v, t[4];
DWORD d, e;
struct point { BYTE x; WORD y; } p, q, ps[4];
const BYTE k = 3;
#pragma melsession
BYTE s;
#pragma melpublic 0
BYTE data[16];
"""
BODY = 13  # the first line of what stands behind it


def said(tmp_path, text, name="app.c", front=FRONT):
    """What is told of a file, and its section."""
    path = tmp_path / name
    path.write_text(front + text, encoding="utf-8")
    faults, made = compiled(str(path), "app", True)
    return [it.replace(f"{path}:", "") for it in faults.lines()], made


def in_main(text):
    """A `main` with these statements."""
    return f"void main(void)\n{{\n    {text}\n}}\n"


# ---- refusals: statements of `main`, and a part of what is told of them

STATEMENTS = [
    ("int i;", "take BYTE, WORD or DWORD"), ("long l;", "objects of type `long`"), ("signed char f;", "objects of type"), ("float f;", "objects of type"),
    ("volatile BYTE f;", "`volatile`"), ("BYTE *f;", "no pointers"), ("BYTE f[];", "number of elements"), ("static BYTE f;", "`static`"),
    ("extern BYTE f;", "`extern`"), ("struct { BYTE f : 3; } g;", "bit fields"), ("enum { ONE } f;", "`int` in C"), ("BYTE b;", "means something else"),
    ("BYTE Lc;", "word of drafts"), ("BYTE SB;", "word of drafts"), ("BYTE ALL;", "word of drafts"), (f"BYTE {'f' * 33};", "longer than 32"),
    ("goto end; end: b = 1;", "no `goto`"), ("switch (b) { b = 1; }", "below a case"), ("switch (b) { case 1: BYTE f; }", ""),
    ("switch (b) { case 1: case 1: b = 1; }", "twice"), ("switch (b - c) { case 1: b = 1; }", "negative"), ("b = b << c;", "shift has a constant"),
    ("b = 1, c = 2;", "`for` alone"), ("b = b * c;", "loop of additions"), ("b = b / c;", "power of two"), ("b = b / 3;", "power of two"),
    ("b = b % 10;", "power of two"), ("a[b++] = 1;", "statement of its own"), ("b = c = 0;", "statement of its own"), ("if (b = 1) c = 1;", "was `==` meant"),
    ("BYTE f[2] = { [1] = 3 };", "without names"), ("k = 4;", "`const`"), ("k++;", "`const`"), ("memcpy(&k, &b, 1);", "`const`"), ("if (b - c < 0) b = 1;", "negative"),
    ("b = (b - c) >> 1;", "negative"), ("b = (b - c) / 2;", "negative"), ("b = (b - c) % 2;", "negative"), ("a[b - c] = 1;", "negative"),
    ("ExitSW(w - v);", "negative"), ("d = w * 60000;", "cast an operand to DWORD"), ("w = w << 16;", "cast an operand to DWORD"), ("a[4] = 1;", "4 elements"),
    ("b = a[4];", "4 elements"), ("memcpy(a, data, 5);", "more than the 4"), ("memcpy(a, data, b);", "constant"), ("memcpy(a, data, 0);", "no number of bytes"),
    ("memcpy(b, data, 1);", "write `&b`"), ("memset(a, 7, 4);", "0 or 255"), ("if (memcmp(a, data, 4) == 1) b = 1;", "with 0 alone"),
    ("b = memcmp(a, data, 4);", "against 0 alone"), ("w = 3000000000;", "`long` in C"), ("w = 1L;", "no `long`"), ("b = 1.5;", "no whole number"), ("b == 1;", "was `=` meant"),
    ("b;", "does nothing"), ("p = b;", ""), ("p = ps;", "another type"), ("b = p;", "no number"), ("b = nothing;", "not declared"), ("nothing();", "not declared"),
    ("b = p.z;", "no member"), ("b = p->x;", "no pointers"), ("b = *a;", "no pointers"), ("w = &b;", "address"), ("main();", "not called"), ("break;", "in a loop"),
    ("continue;", "in a loop"), ("return 1;", "no result"), ("multosSetTransactionProtection(4);", "0 to 3"), ("if (CheckCase(5)) b = 1;", "1 to 4"),
    ("multosDESECBEncipher(7, data, data, data);", "multiple of 8"), ("multosSecureHash(4, data, data);", "more than the 16"), ("b = sizeof d - 5;", "cast"),
    ("b = (struct point)p;", ""), ("Exit(1);", "arguments"), ("{ BYTE f; { BYTE f; } }", "one thing"),
]
DECLARATIONS = [
    ("BYTE f(BYTE g) { return f(g); }\nvoid main(void) { b = f(1); }", "calls itself"), ("BYTE f(struct point g) { return 1; }\nvoid main(void) { }", "a parameter is"),
    ("BYTE f(BYTE g[4]) { return 1; }\nvoid main(void) { }", "no pointers"), ("BYTE f(BYTE g, ...) { return 1; }\nvoid main(void) { }", "`...`"),
    ("BYTE f(void);\nvoid main(void) { b = f(); }", "no body"), ("BYTE f(BYTE g);\nBYTE f(WORD g) { return 1; }\nvoid main(void) { }", "another prototype"),
    ("BYTE f(void) { b = 1; return 2; }\nvoid main(void) { c = b + f(); }", "leaves open"), ("BYTE f(void) { b = 1; return 2; }\nvoid main(void) { c += f(); }", "leaves open"),
    ("BYTE f(void) { b = 1; return 2; }\nvoid main(void) { a[b & 3] = f(); }", "leaves open"), ("int main(void) { }", ""), ("void main(BYTE f) { }", "void main(void)"),
    ("#pragma melsession\nBYTE f = 1;\nvoid main(void) { }", "no initial value"), ("#pragma melpublic 0\nBYTE f = 1;\nvoid main(void) { }", "no initial value"),
    ("union u { BYTE f; WORD g; };\n#pragma melstatic\nunion u h = { 1 };\nvoid main(void) { }", "union"), ("#pragma melstatic\nconst BYTE f;\nvoid main(void) { }", "no value"),
    ('#pragma attribute("dir", "00")\nvoid main(void) { }', "the only one"), ("#pragma melother\nvoid main(void) { }", "not known"), ("BYTE f;", "`void main(void)`"),
    ("extern BYTE f;\nvoid main(void) { }", "`extern`"), ("#pragma melstatic\nBYTE f[4090];\nvoid main(void) { }", "static bytes"),
    ("BYTE f(void) { return 1; }\nBYTE f(void) { return 1; }\nvoid main(void) { }", "twice"), ("struct point { BYTE f; };\nvoid main(void) { }", "twice"),
    ("typedef BYTE *f;\nvoid main(void) { }", "no pointers"), ("void main(void) { BYTE f[300]; BYTE g[300]; }", "512"), ("#include <stdio.h>\nvoid main(void) { }", "stdio.h"),
    ("void main(void) { b = ; }", "no C stands here"),
]


@pytest.mark.parametrize("text, part", STATEMENTS, ids=[it[0][:40] for it in STATEMENTS])
def test_a_statement_is_refused_with_its_place(tmp_path, text, part):
    found, made = said(tmp_path, in_main(text))
    assert made is None and re.match(rf"{BODY + 2}:\d+: error: ", found[0]) and part in found[0], found


@pytest.mark.parametrize("text, part", DECLARATIONS, ids=[it[0][:40] for it in DECLARATIONS])
def test_a_declaration_is_refused_with_its_place(tmp_path, text, part):
    found, made = said(tmp_path, text + "\n")
    assert made is None and any(re.match(r"\d+:\d+: error: ", it) and part in it for it in found), found


def test_all_statements_that_are_refused_are_told_in_order(tmp_path):
    found, made = said(tmp_path, in_main("b = b * c;\n    c = 1;\n    b = c = 2;\n    if (b) { w = v / 3; }"))
    assert made is None and [it.partition(":")[0] for it in found] == [str(BODY + it) for it in (2, 4, 5)]


def test_after_a_declaration_that_is_refused_no_function_is_read(tmp_path):
    found, _ = said(tmp_path, "int f;\n" + in_main("b = b * c;"))
    assert len(found) == 1 and "`int`" in found[0]


@pytest.mark.parametrize("text, part", [("if (b < 256) c = 1;", "always true"), ("if (w >= 0) c = 1;", "always true"), ("if (b == 300) c = 1;", "always false")])
def test_a_condition_that_ranges_decide_is_a_warning(tmp_path, text, part):
    found, made = said(tmp_path, in_main(text))
    assert len(found) == 1 and ": warning: " in found[0] and part in found[0] and "CMP" not in made


def test_a_function_that_is_never_called_is_a_warning(tmp_path):
    found, made = said(tmp_path, "static void f(void) { b = 1; }\n" + in_main("c = 1;"))
    assert len(found) == 1 and "`f` is never called" in found[0] and "SETB b,1" not in made


# ---- shapes


def code(tmp_path, text, functions=""):
    """The code of statements, each instruction as it is written, without its label; the last EXIT is left out."""
    found, made = said(tmp_path, functions + in_main(text))
    assert made is not None, found
    section = made[made.index("PUBLIC data 0 16"):].splitlines()[1:]
    rows = [re.sub(r"^\w+:", "", it.partition(";")[0]).strip() for it in section if not it.startswith(";") and it != "end"]
    return rows[:-1] if rows[-1] == "EXIT" else rows


SHAPES = [
    ("if (b == 5) c = 1;", ["CMPB b,5", "BRANCH NE,L1", "SETB c,1"]), ("if (w >= 500) c = 1;", ["CMPW w,500", "BRANCH LT,L1", "SETB c,1"]),
    ("if (d > 70000) c = 1;", ["PUSHW 0x0001", "PUSHW 0x1170", "CMPN d", "POPN 4", "BRANCH LE,L1", "SETB c,1"]), ("if (!w) c = 1;", ["TESTN w", "BRANCH NE,L1", "SETB c,1"]),
    ("if (b == 0) c = 1;", ["TESTN b", "BRANCH NE,L1", "SETB c,1"]), ("if (d > 0) c = 1;", ["TESTN d", "BRANCH EQ,L1", "SETB c,1"]),
    ("if (b >= 1) c = 1;", ["TESTN b", "BRANCH EQ,L1", "SETB c,1"]), ("if (b & 4) c = 1;", ["LOAD b", "PRIM 1,3,0x04", "POPB", "BRANCH EQ,L1", "SETB c,1"]),
    ("if (w < v) c = 1;", ["LOAD v", "CMPN w", "POPW", "BRANCH GE,L1", "SETB c,1"]), ("WORD l = v; if (w < l) c = 1;", ["LOAD v", "CMPN w", "BRANCH GE,L1", "SETB c,1"]),
    ("WORD l = v; w -= l;", ["LOAD v", "SUBN w"]), ("w -= v;", ["LOAD v", "SUBN w", "POPW"]), ("w = w + v;", ["LOAD v", "ADDN w", "POPW"]), ("d |= e;", ["LOAD e", "ORN d", "POPN 4"]),
    ("b++; w -= 1; d++;", ["INCN b", "DECN w", "INCN d"]), ("b += 5; w = w + 500;", ["ADDB b,5", "ADDW w,500"]), ("b = 0; b = 3; w = 0; w = 3; d = 0;", ["SETB b,0", "SETB b,3", "CLEARN w", "SETW w,3", "CLEARN d"]),
    ("switch (b) { case 1: c = 1; break; case 2: c = 2; break; case 3: c = 3; }",
     ["CMPB b,1", "BRANCH EQ,L1", "CMPB b,2", "BRANCH EQ,L2", "CMPB b,3", "BRANCH EQ,L3", "EXIT", "SETB c,1", "EXIT", "SETB c,2", "EXIT", "SETB c,3"]),
    ("p = q;", ["LOAD q", "STORE p"]), ("memcpy(a, data, 4);", ["LOAD data,4", "STORE a"]), ("if (memcmp(a, data, 4) != 0) c = 1;", ["LOAD data,4", "CMPN a", "POPN 4", "BRANCH EQ,L1", "SETB c,1"]),
    ("memset(a, 0, 4);", ["CLEARN a"]), ("memset(a, 255, 4);", ["PUSHZ 4", "NOTN 4", "STORE a"]), ("b = b + c;", ["LOAD c", "ADDN b", "POPB"]),
    ("if (b + 1 > n) c = 1;", ["PUSHZ 1", "LOAD b", "INCN 2", "PUSHZ 1", "LOAD n", "CMPN 2", "POPN 4", "BRANCH LE,L1", "SETB c,1"]),
    ("BeginTransaction(); CommitTransaction();", ["PRIM 3,2", "PRIM 3,1"]), ("ExitSW(0x6700);", ["EXITSW 0x6700"]), ("ExitSW(w);", ["LOAD w", "STORE SW"]), ("ExitLa(2);", ["EXITLA 0x0002"]),
    ("if (CheckCase(2)) c = 1;", ["PUSHB 2", "PRIM 1", "BRANCH NE,L1", "SETB c,1"]), ("b = a[n];", ["LOAD n", "INDEX a,1", "LOADI 1", "STORE b", "POPW"]),
    ("a[n] = b;", ["LOAD n", "INDEX a,1", "LOAD b", "STOREI 1", "POPW"]), ("t[n & 3]++;", ["LOAD n", "PRIM 1,0,0xFC", "INDEX t,2", "LOADI 2", "INCN 2", "STOREI 2", "POPW"]),
]


@pytest.mark.parametrize("text, wanted", SHAPES, ids=[it[0][:40] for it in SHAPES])
def test_a_statement_has_its_promised_code(tmp_path, text, wanted):
    assert code(tmp_path, text) == wanted


def test_exits_of_one_height_are_shared(tmp_path):
    found = code(tmp_path, "if (b == 1) ExitSW(0x6700); if (c == 2) ExitSW(0x6700); if (w) ExitSW(0x6985); { BYTE l = 1; if (n == l) ExitSW(0x6700); }")
    assert found.count("EXITSW 0x6700") == 2 and found.count("EXITSW 0x6985") == 1
    assert found[:4] == ["CMPB b,1", found[1], "CMPB c,2", found[1]] and found[1].startswith("BRANCH EQ,")


def test_a_function_with_one_call_is_inlined_and_one_with_two_is_not(tmp_path):
    function = "static WORD f(BYTE x) { return x + w; }\n"
    assert not any("CALL" in it for it in code(tmp_path, "v = f(b);", function))
    found = code(tmp_path, "v = f(b); v = f(c);", function)
    assert found.count("CALL ALL,f") == 2 and found[-1] == "RETIO 1,2"
    assert not any("CALL" in it for it in code(tmp_path, "v = f(b); v = f(c); a[n] = 1;", function))


def test_a_parameter_that_is_assigned_is_copied_above_lb(tmp_path):
    found = code(tmp_path, "v = f(b); v = f(c);", "static WORD f(BYTE x) { x++; return x; }\n")
    assert "LOAD LB[-5],1" in found and "INCN LB[0],1" in found and not any("LB[-" in it and not it.startswith("LOAD") for it in found)


# ---- the programs of the examples


def desk(words, text):
    """What meldesk writes."""
    return subprocess.run([program_path("meldesk"), *words], input=text.encode(), stdout=subprocess.PIPE, check=False).stdout.decode()


@pytest.mark.parametrize("name, most", [("badge", 146), ("purse", 119)])
def test_an_example_is_small_accepted_and_proved(name, most):
    draft = melc_host.draft_of(EXAMPLES / f"{name}.c", name)
    size = int(re.search(r"code (\d+)", desk(["list"], draft))[1])
    assert size <= most and " accept " in desk(["check"], draft)
    whole = draft + "".join((EXAMPLES / f"{name}{it}").read_text(encoding="utf-8") for it in (".tests", ".rules"))
    deck = desk(["deck"], whole)
    for words, end in ((["expect"], None), (["prove"], r"proved keys \d+$")):
        done = subprocess.run([program_path("mellab"), *words], input=deck.encode(), stdout=subprocess.PIPE, check=False)
        assert done.returncode == 0, done.stdout.decode()
        assert end is None or re.match(end, done.stdout.decode().splitlines()[-1])


def test_the_same_file_gives_the_same_draft():
    assert melc_host.draft_of(EXAMPLES / "badge.c", "badge") == melc_host.draft_of(EXAMPLES / "badge.c", "badge")


# ---- lines


def test_lines_of_a_draft_become_lines_of_c():
    draft = melc_host.draft_of(EXAMPLES / "badge.c", "badge")
    found = lines.lines_of(draft)
    whole = draft + (EXAMPLES / "badge.tests").read_text(encoding="utf-8")
    trace = [lines.line_of(found, it) for it in desk(["trace"], whole).splitlines()]
    assert any(re.match(r"> .* DECN SB\[0\],1 .* ; badge\.c:22 (?:\w+: +)?DECN tries ; 02 -$", it) for it in trace), trace
    assert not any(re.match(r"> [^;]* ; \d+ ", it) for it in trace)
    listed = [lines.line_of(found, it) for it in desk(["list"], draft).splitlines()]
    assert any(re.search(r" badge\.c:22 (?:\w+: +)?DECN tries$", it) for it in listed) and listed[0].startswith("app badge")
    steps = [lines.line_of(found, it) for it in desk(["steps"], whole).splitlines()]
    assert any('"source":22,"file":"badge.c","ins":"DECN SB[0],1"' in it for it in steps)


def test_coverage_adds_up_the_lines_of_c():
    draft = melc_host.draft_of(EXAMPLES / "badge.c", "badge")
    whole = draft + (EXAMPLES / "badge.tests").read_text(encoding="utf-8")
    found = list(lines.filtered(lines.lines_of(draft), (f"{it}\n" for it in desk(["cover", "badge.draft"], whole).splitlines())))
    assert found[:2] == ["TN:", "SF:badge.c"] and found[-1] == "end_of_record"
    numbers = [int(it[3:].partition(",")[0]) for it in found if it.startswith("DA:")]
    assert numbers == sorted(set(numbers)) and "DA:22,2" in found
    assert f"LF:{len(numbers)}" in found


def test_locals_have_their_places(tmp_path):
    _, made = said(tmp_path, in_main("BYTE i = 1; WORD l; l = i; { DWORD m = 0; m = l; w = m; }"))
    found = lines.lines_of(made)
    assert [(it.function, it.name, it.offset, it.size) for it in found.locals] == [("main", "i", 0, 1), ("main", "l", 1, 2), ("main", "m", 3, 4)]
    assert found.function(found.locals[0].place) == "main"


# ---- words


def run(*words, text="", at=TOP):
    """What `melc` does."""
    return subprocess.run([sys.executable, "-B", str(MELC), *map(str, words)], input=text, cwd=at, stdout=subprocess.PIPE, stderr=subprocess.PIPE, text=True,
                          check=False)


def test_words_and_statuses(tmp_path):
    done = run(EXAMPLES / "badge.c", "-o", tmp_path / "badge.draft", "-n", "door")
    assert (done.returncode, done.stdout, done.stderr) == (0, "", "")
    text = (tmp_path / "badge.draft").read_text(encoding="utf-8")
    assert text.startswith("format\npower\napp door A000000302\n") and text.endswith("end\nload door\n")
    done = run("-s", EXAMPLES / "badge.c")
    assert done.stdout.startswith("app badge A000000302\n") and done.stdout.endswith("end\n")
    (tmp_path / "wrong.c").write_text("int f;\n", encoding="utf-8")
    done = run("wrong.c", "-o", "wrong.draft", at=tmp_path)
    assert done.returncode == 1 and done.stderr.startswith("wrong.c:1:") and not (tmp_path / "wrong.draft").exists()
    assert [run(*it).returncode for it in ([], ["badge.draft"], ["lines"], ["no.c"], [EXAMPLES / "badge.c", "-o", "/proc/none/x"], ["lines", "no.draft"])] == [2, 2, 2, 3, 4, 3]
    done = run("lines", tmp_path / "badge.draft", text="1 formatted\n")
    assert (done.returncode, done.stdout) == (0, "1 formatted\n")
