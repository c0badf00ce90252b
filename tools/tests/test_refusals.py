"""Asks `mellab prove` why it refuses malformed lines of rules: the causes are those of the definition, of which the table below is computed by the
worked rows of `crates/prove_rules/src/refusal_rows.rt`. Lines that are made of parts are judged here by a reading of their own.

It needs pytest, and the programs, built by tools/build or by `rt ci`.
"""

import itertools
import re
import subprocess

import pytest
from card import program_path

DECK = """format
power
app a A000000001
INCN SB[0],2
EXIT
end
load a 2 0
select A000000001
"""
# Lines of rules before a malformed one: with an application, a sum and an allowance, and without the application.
NAMED = "#@ app a\n#@ sum s 1\n#@ allow k 1\n"
UNNAMED = "#@ sum s 1\n#@ allow k 1\n"
TABLE = [
    # words
    (NAMED, "#@", "BadLine"),
    (NAMED, "#@rule", "BadLine"),
    (NAMED, "#@ rule", "BadLine"),
    (NAMED, "#@allow n 1", "BadLine"),
    (NAMED, "#@ app", "BadLine"),
    (NAMED, "#@ app a b", "BadLine"),
    (NAMED, "#@ app a-b", "BadName"),
    (NAMED, "#@ app b", "NameTwice"),
    (UNNAMED, "#@ app b", "UnknownName"),
    (NAMED, "#@ allow n", "BadLine"),
    (NAMED, "#@ allow n-m x", "BadName"),
    (NAMED, "#@ allow k x", "BadNumber"),
    (NAMED, "#@ allow k 4294967296", "OutOfRange"),
    (NAMED, "#@ allow k 2", "NameTwice"),
    (NAMED, "#@ sum s 2", "NameTwice"),
    (NAMED, "#@ sum n 1 2", "BadLine"),
    (NAMED, "#@ never", "BadLine"),
    (NAMED, "#@ never end", "BadLine"),
    (NAMED, "#@ never abend 1", "BadLine"),
    (UNNAMED, "#@ never abends", "BadLine"),
    (UNNAMED, "#@ never abend", "NoApplication"),
    # events
    (NAMED, "#@ on", "BadLine"),
    (NAMED, "#@ on move * allow k 1", "BadLine"),
    (NAMED, "#@ on turn *", "BadLine"),
    (NAMED, "#@ on turn allow k 1", "BadLine"),
    (NAMED, "#@ on command 80 add n allow k 1", None),
    (NAMED, "#@ on command 80 add s 1", "BadLine"),
    (NAMED, "#@ on command take allow n 1", "UnknownName"),
    (NAMED, "#@ on session add s 1", "BadLine"),
    (NAMED, "#@ on session add s allow k 1", "BadLine"),
    (NAMED, "#@ on answer 80 add gives 90 take allow k 1", None),
    (NAMED, "#@ on answer gives * allow k 1", "BadLine"),
    (NAMED, "#@ on answer * gives allow k 1", "BadLine"),
    (NAMED, "#@ on answer * allow k 1", "BadLine"),
    (NAMED, "#@ on turn * allow k", "BadLine"),
    (NAMED, "#@ on turn * allow k-k x", "BadName"),
    (NAMED, "#@ on turn * spend n x", "BadNumber"),
    (NAMED, "#@ on turn * need n 4294967296", "OutOfRange"),
    (NAMED, "#@ on turn * need n 1", "UnknownName"),
    (UNNAMED, "#@ on turn * need n 1", "NoApplication"),
    (UNNAMED, "#@ on turn * need n x", "BadNumber"),
    # amounts
    (NAMED, "#@ on turn * take a-b SB[0]", "BadLine"),
    (NAMED, "#@ on turn * add s PB[0", "BadLine"),
    (NAMED, "#@ on turn * add s XX[0]", "BadLine"),
    (NAMED, "#@ on turn * add s PB[0]1", "BadLine"),
    (NAMED, "#@ on turn * add s PB[0[1]", "BadLine"),
    (NAMED, "#@ on turn * add s PB[1.2]", "BadLine"),
    (NAMED, "#@ on turn * add s PB[1..2..3]", "BadLine"),
    (NAMED, "#@ on turn * add s PB[1...2]", "BadLine"),
    (NAMED, "#@ on turn * add a-b PB[x]", "BadName"),
    (NAMED, "#@ on turn * add s PB[]", "BadNumber"),
    (NAMED, "#@ on turn * add s PB[..]", "BadNumber"),
    (NAMED, "#@ on turn * add s PB[0..x]", "BadNumber"),
    (NAMED, "#@ on turn * add s PB0]", "BadNumber"),
    (NAMED, "#@ on turn * add s PB[-1]", "OutOfRange"),
    (NAMED, "#@ on turn * add s PT[0]", "OutOfRange"),
    (NAMED, "#@ on turn * add s PT[-1042]", "OutOfRange"),
    (NAMED, "#@ on turn * add s PB[1041]", "OutOfRange"),
    (NAMED, "#@ on turn * add s PB[3..2]", "OutOfRange"),
    (NAMED, "#@ on turn * add s 4294967296", "OutOfRange"),
    (UNNAMED, "#@ on turn * add s PB[1041]", "NoApplication"),
    (UNNAMED, "#@ on turn * add s 4294967296", "OutOfRange"),
    (NAMED, "#@ on turn * add n PB[1041]", "UnknownName"),
    (NAMED, "#@ on turn * add s", "BadLine"),
    (NAMED, "#@ on turn * add s 1 2", "BadLine"),
    (NAMED, "#@ on turn * add s PB[4294967297..4294967296]", "OutOfRange"),
    (NAMED, "#@ on turn * add s PT[-1041..-1]", None),
    # ranges
    (NAMED, "#@ always", "BadLine"),
    (NAMED, "#@ always SB[0]", "BadLine"),
    (NAMED, "#@ always SB[0] 0", "BadLine"),
    (NAMED, "#@ always SB[0] 0 1 2", "BadLine"),
    (NAMED, "#@ always SB[1[2] 0 1", "BadLine"),
    (NAMED, "#@ always SB[1]2] 0 1", "BadLine"),
    (NAMED, "#@ always SB[0 0 1", "BadLine"),
    (NAMED, "#@ always XX[0] 0 1", "BadLine"),
    (NAMED, "#@ always SB[1.2] 0 1", "BadNumber"),
    (NAMED, "#@ always SB[0..1] 0 1", "BadNumber"),
    (NAMED, "#@ always SB[-1] 0 1", "BadNumber"),
    (NAMED, "#@ always SB[9] 0 x", "BadNumber"),
    (NAMED, "#@ always SB[4294967298] 0 1", "OutOfRange"),
    (NAMED, "#@ always SB[0] 4294967297 4294967296", "OutOfRange"),
    (UNNAMED, "#@ always SB[9] 2 1", "NoApplication"),
    # totals
    (NAMED, "#@ always SB[0] =", "BadLine"),
    (NAMED, "#@ always = 1", "BadLine"),
    (NAMED, "#@ always SB[0..1] 1 + s", "BadLine"),
    (NAMED, "#@ always SB[0..1] = 1 + s -", "BadLine"),
    (NAMED, "#@ always SB[0..1] = 1 s", "BadLine"),
    (NAMED, "#@ always SB[0..1] = 1 * s", "BadLine"),
    (NAMED, "#@ always SB[1.2] = 1 + s", "BadLine"),
    (NAMED, "#@ always SB[1..2..3] = 1", "BadLine"),
    (NAMED, "#@ always SB[0..x] = x + a-b", "BadNumber"),
    (NAMED, "#@ always SB[0..1] = x + a-b", "BadNumber"),
    (NAMED, "#@ always SB[0..1] = 4294967296 + a-b", "OutOfRange"),
    (NAMED, "#@ always SB[0..9] = 1 + a-b", "BadName"),
    (NAMED, "#@ always SB[0..9] = 1 + n", "UnknownName"),
    (NAMED, "#@ always SB[0..2] = 1 + s", "OutOfRange"),
    (NAMED, "#@ always SB[1..0] = 1 + s", "OutOfRange"),
    (NAMED, "#@ always SB[4294967297..4294967296] = 1", "OutOfRange"),
    (UNNAMED, "#@ always SB[0..9] = 1 + n", "NoApplication"),
    (NAMED, "#@ always SB[0] = 1 + k", "UnknownName"),
    # order
    (NAMED, "#@ on turn * take a-b SB[0]\n#@ rule", "BadLine"),
    (NAMED, "#@ allow k 2\n#@ rule", "NameTwice"),
]
BLOCKS = ["SB[0]", "SB[0..1]", "SB[1..0]", "SB[0..2]", "SB[0x1]", "SB[x]", "SB[0..x]", "SB[1.1]", "SB[0..1..1]", "SB[0]]", "SB[[0]", "SB[0", "DB[0]", "SB[]", "[0]"]
CONSTANTS = ["0", "4294967295", "4294967296", "x", "-1"]
TERMS = ["", "+ s", "- s + s", "+ n", "+ a-b", "+", "* s", "s +"]
AMOUNTS = ["1", "x", "4294967296", "PB[0]", "PB[0..3]", "PB[3..0]", "PB[1040]", "PB[1041]", "PB[-0]", "PB[-1]", "PT[-1]", "PT[0]", "PT[-1041]", "PT[-1042]", "PB[x]", "PB[1.2]", "PB[1..2..3]", "PB[0", "PB[0]]", "PB[[0]", "SB[0]", "PB[0xF]", "PT[-0x1]"]


class Refused(Exception):
    """A line is refused, for a cause."""


def refuse_if(test, cause):
    if test:
        raise Refused(cause)


def natural(text):
    if re.fullmatch(r"0x[0-9A-Fa-f]{1,4}", text):
        return int(text, 16)
    refuse_if(not re.fullmatch(r"[0-9]+", text), "BadNumber")
    return int(text)


def signed(text):
    if text.startswith("-"):
        refuse_if(not re.fullmatch(r"-[0-9]+", text), "BadNumber")
        return -int(text[1:])
    return natural(text)


def amount(text):
    refuse_if(not re.fullmatch(r"[0-9]+", text), "BadNumber")
    refuse_if(int(text) > 4294967295, "OutOfRange")


def name(text):
    refuse_if(not re.fullmatch(r"[A-Za-z0-9_]{1,32}", text), "BadName")


def bracketed(text, registers):
    found = re.fullmatch(r"([^\[\]]*)\[([^\[\]]*)\]", text)
    refuse_if(not found or found[1] not in registers, "BadLine")
    return found[1], found[2]


def ends(text):
    parts = text.split(".")
    if len(parts) == 1:
        return parts[0], parts[0]
    refuse_if(len(parts) != 3 or parts[1], "BadLine")
    return parts[0], parts[2]


def total_cause(block, constant, terms, named):
    """The cause for which `always BLOCK = CONSTANT TERMS` is refused, or None."""
    try:
        first, last = ends(bracketed(block, ["SB"])[1])
        words = terms.split()
        refuse_if(len(words) % 2 or any(sign not in ("+", "-") for sign in words[::2]), "BadLine")
        first, last = natural(first), natural(last)
        amount(constant)
        for word in words[1::2]:
            name(word)
        refuse_if(not named, "NoApplication")
        refuse_if(any(word != "s" for word in words[1::2]), "UnknownName")
        refuse_if(first > last or last >= 2, "OutOfRange")
    except Refused as cause:
        return str(cause)
    return None


def sum_cause(who, text, named):
    """The cause for which `on turn * add WHO TEXT` is refused, or None."""
    try:
        places = None
        if "[" in text:
            register, inside = bracketed(text, ["PB", "PT"])
            places = ends(inside)
        name(who)
        if places:
            base = 0 if register == "PB" else 1041
            first, last = (base + signed(place) for place in places)
            first = -1 if register == "PT" and first >= 1041 else first
            last = 1041 if register == "PT" and last >= 1041 else last
        else:
            amount(text)
        refuse_if(not named, "NoApplication")
        refuse_if(who != "s", "UnknownName")
        refuse_if(places and not 0 <= first <= last < 1041, "OutOfRange")
    except Refused as cause:
        return str(cause)
    return None


def refusal(rules):
    """What `mellab prove` says of a deck with some rules: a cause and its line, or None."""
    run = subprocess.run([program_path("mellab"), "prove"], input=(DECK + rules).encode(), capture_output=True, check=False)
    found = re.fullmatch(r"line ([0-9]+) ([A-Za-z]+)\n", run.stdout.decode() or run.stderr.decode())
    return (int(found[1]), found[2]) if found else None


def due(before, cause):
    return None if cause is None else (9 + before.count("\n"), cause)


@pytest.mark.parametrize(("before", "line", "cause"), TABLE)
def test_table(before, line, cause):
    assert refusal(before + line + "\n") == due(before, cause)


@pytest.mark.parametrize("block", BLOCKS)
def test_totals(block):
    for constant, terms, before in itertools.product(CONSTANTS, TERMS, (NAMED, UNNAMED)):
        line = f"#@ always {block} = {constant} {terms}".rstrip()
        assert refusal(f"{before}{line}\n") == due(before, total_cause(block, constant, terms, before == NAMED)), line


@pytest.mark.parametrize("text", AMOUNTS)
def test_amounts(text):
    for who, before in itertools.product(("s", "n", "a-b"), (NAMED, UNNAMED)):
        line = f"#@ on turn * add {who} {text}"
        assert refusal(f"{before}{line}\n") == due(before, sum_cause(who, text, before == NAMED)), line
