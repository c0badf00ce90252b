"""Follows the ways that `mellab prove` writes after what is broken, and looks at the page that is made of its text.

It needs pytest, and the programs, built by tools/build or by `rt ci`.
"""

import pathlib
import re
import subprocess
import sys
import tarfile

import pytest
from card import deck_of, program_path
from test_prove import Broken, Play, Victim

TOP = pathlib.Path(__file__).resolve().parent.parent.parent
TOOLS = TOP / "tools" / "mel"
DECKS = pathlib.Path(__file__).resolve().parent / "prove_decks.tar.xz"
PURSE = (TOP / "examples" / "pin_proved.deck").read_text(encoding="ascii")
# The try is counted down after a wrong comparison alone, so that whoever cuts power in between has another.
LATE = re.sub(r"        DECN SB\[2\],1 .*\n", "", PURSE).replace("JUMP NE,denied", "JUMP NE,wrong", 1)
LATE = LATE.replace("denied: EXITSW", "wrong:  DECN SB[2],1\ndenied: EXITSW", 1)


def proved(deck):
    """What `mellab prove` writes of a deck."""
    done = subprocess.run([program_path("mellab"), "prove"], input=deck.encode(), stdout=subprocess.PIPE, timeout=200, check=False)
    return done.stdout.decode()


def run(tool, deck, *words):
    """What a tool writes of a text on its standard input, and its status."""
    done = subprocess.run([sys.executable, str(TOOLS / tool), "-", *words], input=deck.encode(), stdout=subprocess.PIPE, timeout=200, check=False)
    return done.returncode, done.stdout.decode()


def test_a_way_ends_at_the_line_of_the_instruction_that_breaks_the_rule():
    followed = 0
    with tarfile.open(DECKS) as packed:
        decks = [packed.extractfile(it).read().decode() for it in packed.getmembers() if it.name.endswith(".deck")]
    for deck in decks:
        lines = deck.splitlines()
        for found in re.finditer(r"^broken \S+ line \d+ at [0-9A-F]{4} ; (\S+).* ; (created.*)$", proved(deck), re.MULTILINE):
            word, way = found.groups()
            last = re.split(r"[ -]", way)[-1]
            if len(last) < 4 or not re.fullmatch("[0-9A-F]{4}", last):
                assert re.search(rf"(?:^|:|\s){word}\b", lines[int(last) - 1]), (word, lines[int(last) - 1])
                followed += 1
    assert followed > 10


def test_a_way_of_commands_goes_before_one_of_delegations():
    text = proved(LATE)
    way = re.search(r"^broken guesses .* ; (created.*)$", text, re.MULTILINE)
    assert way and way[1].startswith("created, select, apdu "), text
    assert "delegated" not in way[1]
    # The command that compares the PIN is known by its INS.
    assert re.search(r"apdu \S+ 20 ", way[1]), way[1]


def test_the_page_has_a_row_for_each_key_and_the_way_of_each_broken_rule():
    for deck in (PURSE, LATE):
        text = proved(deck)
        status, page = run("prove_html.py", text)
        assert status == 0
        keys = [line for line in text.splitlines() if re.match(r"idle |session ", line)]
        assert page.count('<tr class="idle">') + page.count('<tr class="session">') == len(keys) > 0
        assert page.count('<ol class="way">') == len(re.findall(r" ; created", text))


def test_the_page_refuses_another_text():
    assert run("prove_html.py", "explored states 1 tries 1 all\n")[0] == 2


# INS 99, which no way has, gives the tries back.
GIFT = re.sub("^        EXITSW 0x6D00", "        CMPB PT[-12],0x99\n        JUMP EQ,gift\n        EXITSW 0x6D00", PURSE, flags=re.MULTILINE)
GIFT = re.sub("^(length: .*)", r"\1\ngift:   SETB SB[2],3\n        EXIT", GIFT, flags=re.MULTILINE)


def test_the_proposed_moves_break_the_rule():
    for purse in (LATE, GIFT):
        status, deck = run("prove_moves.py", purse)
        assert status == 0 and "#@ move select A000000100\n" in deck
        depth = re.search(r"^# mellab explore (\d+)$", deck, re.MULTILINE)[1]
        done = subprocess.run([program_path("mellab"), "explore", depth], input=deck.encode(), stdout=subprocess.PIPE, timeout=200, check=False)
        assert done.returncode == 1 and re.search(r"^broken guesses after \d+ lines", done.stdout.decode(), re.MULTILINE), done.stdout.decode()


def test_nothing_is_proposed_of_what_is_proved():
    assert run("prove_moves.py", PURSE) == (1, "")


# ---- an application of a new user: rules, faults that are found and shown, and mended

DOOR = (pathlib.Path(__file__).resolve().parent / "door.draft").read_text(encoding="ascii")
PAID = "        SETB known,0            ; one opening for each PIN, before it is counted\n"
# Each fault of it, and the rule that it breaks.
FAULTS = {
    "torn": ([("        PRIM 3,2\n", "")], "waits"),
    "again": ([("        DECN voucher\n", "")], "vouchers"),
    "guessed": ([("        DECN tries\n", "")], "guesses"),
    "late": ([(PAID, ""), ("        DECN uses\n", "        DECN uses\n" + PAID)], "shown"),
}


def faulty(fault):
    """The draft of the door's key with a fault, and the rule that it breaks."""
    edits, rule = FAULTS[fault]
    draft = DOOR
    for old, new in edits:
        assert draft.count(old) == 1, old
        draft = draft.replace(old, new)
    return draft, rule


def test_the_key_of_a_door_keeps_its_rules():
    assert proved(deck_of(DOOR)).splitlines()[-1].startswith("proved keys ")


@pytest.mark.parametrize("fault", FAULTS)
def test_a_fault_of_it_is_found(fault):
    draft, rule = faulty(fault)
    assert re.search(rf"^broken {rule} line ", proved(deck_of(draft)), re.MULTILINE)


@pytest.mark.parametrize("fault", [it for it in FAULTS if it != "late"])
def test_the_proposed_moves_show_it(fault):
    draft, rule = faulty(fault)
    status, deck = run("prove_moves.py", draft)
    depth = re.search(r"^# mellab explore (\d+)$", deck, re.MULTILINE)[1]
    done = subprocess.run([program_path("mellab"), "explore", depth], input=deck.encode(), stdout=subprocess.PIPE, timeout=200, check=False)
    assert status == 0 and re.search(rf"^broken {rule} after \d+ lines", done.stdout.decode(), re.MULTILINE), done.stdout.decode()


def test_a_fault_that_needs_a_budget_is_shown_by_a_play():
    """No move has a budget of its own: two openings for one PIN, of which the first ends before its flag is taken away."""
    draft, rule = faulty("late")
    victim = Victim(deck_of(draft), "A000000500", "load door 10 1", ())
    lines = ["select A000000500", "apdu 8020000003112233", "budget 9", "apdu 80300000", "apdu 80300000"]
    with pytest.raises(Broken, match=rule):
        Play(victim, [*victim.deck.splitlines(), *lines]).run()
    kept = Victim(deck_of(DOOR), victim.aid, victim.load, ())
    Play(kept, [*kept.deck.splitlines(), *lines]).run()
