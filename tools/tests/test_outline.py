"""What tools/mel/outline.py writes of an application, and what it says of an outline that is another's. (tools/dev/try_outline asks the prover.)

It needs pytest, and melcard, built by tools/build or by `rt ci`.
"""

import pathlib
import re
import subprocess
import sys

import pytest

from card import program_path

TOP = pathlib.Path(__file__).resolve().parent.parent.parent
TICKET = """format
power
app ticket A000000300
        CMPB PT[-12],0x10
        JUMP EQ,ride
        EXITSW 0x6D00
ride:   CMPB SB[0],10
        JUMP EQ,full
        INCN SB[0],1
        EXIT
full:   EXITSW 0x6985
DATA 03
end
load ticket 2 1
"""
PLACES = [0, 4, 7, 10, 14, 17, 21, 22]
LAMPS = TOP / "tools" / "tests" / "lamps.deck"
TWICE = """format
power
app twice A000000600
        PUSHB 5
        CALL ALL,bump
        PUSHW 7
        CALL ALL,bump
        EXIT
bump:   INCN SB[0],1
        RET
end
load twice 1 0
"""


def outline(*words):
    """What tools/mel/outline.py does."""
    return subprocess.run([sys.executable, str(TOP / "tools" / "mel" / "outline.py"), *map(str, words)], stdout=subprocess.PIPE, stderr=subprocess.PIPE,
                          text=True, check=False)


@pytest.fixture(name="deck")
def ticket_deck(tmp_path):
    """A file with a deck of the ticket."""
    path = tmp_path / "ticket.deck"
    path.write_text(TICKET, encoding="utf-8")
    return path


def test_a_skeleton_has_a_constructor_for_each_place(deck):
    written = outline(deck, "ticket").stdout
    assert [int(at) for at in re.findall(r"^  at(\d+) :", written, re.MULTILINE)] == PLACES


def test_goals_are_left_where_static_bytes_change(deck):
    written = outline(deck, "ticket").stdout
    left = [line for line in written.splitlines() if line.startswith("turn_at") and "?" in line]
    assert len(left) == 1 and "(at17 " in left[0] and "keeps = ?" in left[0]


def test_definitions_have_no_question_mark(deck):
    written = outline(deck, "ticket").stdout
    definitions = written[written.index("pub record TicketKept"):written.index("turn_at :")]
    assert "?" not in definitions


def test_a_crate_is_made_once(deck, tmp_path):
    folder = tmp_path / "acme_ticket"
    made = outline(deck, "ticket", "--into", folder)
    assert made.returncode == 0 and made.stdout.startswith("acme_ticket: ")
    definitions = (folder / "specs" / "Ticket.antt").read_text(encoding="utf-8")
    assert "fixed = 0x03 ∷ 0x00 ∷ []; session = 1;" in definitions and "0xA0 ∷ 0x00 ∷ 0x00 ∷ 0x03 ∷ 0x00 ∷ []" in definitions
    (folder / "src" / "lib.rt").write_text("mine", encoding="utf-8")
    again = outline(deck, "ticket", "--into", folder)
    assert again.returncode == 2 and "is there already" in again.stderr
    assert (folder / "src" / "lib.rt").read_text(encoding="utf-8") == "mine"


def test_an_outline_of_another_text_differs(deck, tmp_path):
    folder = tmp_path / "acme_ticket"
    outline(deck, "ticket", "--into", folder)
    file = folder / "proofs" / "TicketOutline.antt"
    assert outline(deck, "ticket", "--check", file).stdout == f"{len(PLACES)} places, all as in the code\n"
    deck.write_text(TICKET.replace("INCN SB[0],1", "DECN SB[0],1"), encoding="utf-8")
    said = outline(deck, "ticket", "--check", file)
    assert said.returncode == 1 and said.stdout == "at 17 the code has DECN SB[0],1, the outline says INCN SB[0],1\n"


def constructors(text):
    """The constructor of each place, by its name."""
    return {at: line for line in text.splitlines() for at in re.findall(r"^  at(\w+) :", line)}


def test_a_loop_and_a_routine_have_dt_and_lb():
    places = constructors(outline(LAMPS, "lamps").stdout)
    assert "(s0 ∷ x0 ∷ x1 ∷ dyn) 0x8003 0x8001 c z" in places["29"]
    assert "(s0 ∷ x0 ∷ 0x80 ∷ 0x01 ∷ 0x00 ∷ 0x18 ∷ dyn) 0x8006 0x8006 c z" in places["62"]
    assert "(s0 ∷ dyn) 0x8001 0x8001 c z" in places["24"]
    assert not any("dt lb" in line for line in places.values())


def test_dt_is_the_one_of_a_trace():
    places = constructors(outline(LAMPS, "lamps").stdout)
    commands = "select A000000500\napdu 8010000001FF\napdu 8012000001\napdu 8011000000\n"
    played = subprocess.run([program_path("melcard"), "trace"], input=LAMPS.read_text(encoding="utf-8") + commands, stdout=subprocess.PIPE,
                            text=True, check=True).stdout.splitlines()
    seen = set()
    for line, after in zip(played, played[1:]):
        if line.startswith("> ") and after.startswith("> "):
            at, dt = int(after.split()[2], 16), line.split()[-2]
            assert f" 0x{dt} 0x" in places[str(at)]
            seen.add(at)
    assert seen == {int(at) for at in places} - {0}


def test_heads_name_dt_lb_and_the_floor():
    written = outline(LAMPS, "lamps").stdout
    assert "-- 29, the head of a loop: DT is 0x8003, LB 0x8001, the floor 0x8001\nabbrev pub Known29 : " in written


def test_no_whole_line_of_a_loop_and_a_routine_is_left():
    turns = [line for line in outline(LAMPS, "lamps").stdout.splitlines() if line.startswith("turn_at e h f")]
    assert turns and not any(line.endswith("= ?") for line in turns)
    assert sum(line.count("?") for line in turns) == 4


def test_what_waits_is_named_in_its_order():
    places = constructors(outline(LAMPS, "lamps").stdout)
    assert " 69 true [] v " in places["69"]
    assert " 73 true ((0, w0 ∷ []) ∷ []) v " in places["73"]
    assert " 77 true ((0, w0 ∷ []) ∷ (1, w1 ∷ []) ∷ []) v " in places["77"]
    assert " 80 false [] v " in places["80"]


def test_a_jump_has_what_was_compared_until_it_changes():
    places = constructors(outline(LAMPS, "lamps").stdout)
    assert "→ (found0 p).z ≡ z →" in places["4"]
    assert "→ (found0 p).z ≡ false → (found7 p).z ≡ z →" in places["11"]
    assert "→ (found29 x0).z ≡ false →" in places["36"] and "found29" not in places["40"]
    assert "→ found40 v ≡ false →" in places["47"]


def test_a_routine_has_a_line_for_each_call(tmp_path):
    deck = tmp_path / "twice.deck"
    deck.write_text(TWICE, encoding="utf-8")
    places = constructors(outline(deck, "twice").stdout)
    assert list(places) == ["0", "2", "5", "8", "11", "12from5", "12from11", "16from5", "16from11"]
    assert "0x00 ∷ 0x05 ∷ dyn) 0x8005 0x8005 c z" in places["12from5"]
    assert "0x00 ∷ 0x0B ∷ dyn) 0x8007 0x8007 c z" in places["12from11"]
    folder = tmp_path / "acme_twice"
    outline(deck, "twice", "--into", folder)
    assert outline(deck, "twice", "--check", folder / "proofs" / "TwiceOutline.antt").stdout == "7 places, all as in the code\n"


def test_a_stack_that_the_check_refuses_is_left_open(tmp_path):
    deck = tmp_path / "twice.deck"
    deck.write_text(TWICE.replace("RET\n", "PUSHB 1\n        JUMP ALL,bump\n"), encoding="utf-8")
    places = constructors(outline(deck, "twice").stdout)
    assert "(dt lb : ℕ)" in places["12"] and "dt lb c z" in places["12"]


def test_a_byte_that_was_compared_and_left_the_stack_keeps_a_name(tmp_path):
    deck = tmp_path / "pin.deck"
    deck.write_text(TICKET.replace("CMPB SB[0],10", "LOAD PB[0],2\n        CMPN SB[0],2\n        POPN 2"), encoding="utf-8")
    written = outline(deck, "ticket").stdout
    places = constructors(written)
    assert "(v : Cells) (s0 u14_0 u14_1 : ℕ)" in places["20"] and "→ (found14 v u14_0 u14_1).z ≡ z →" in places["20"]
    assert "next = at20 v s0 x0 x1 _ c z known z0 z14 }" in written


def test_what_a_skeleton_names_is_imported():
    written = outline(LAMPS, "lamps").stdout
    imports = " ".join(line for line in written.splitlines() if line.startswith("use "))
    for name in ("zero", "◌*◌", "Worked", "sub_blocks", "is_zero"):
        assert name in imports


GARBAGE = [
    (b"", "the deck has no section `app a`"), (bytes(range(256)) * 3, "the deck has no section `app a`"), (b"app a zz\nEXIT\nend\n", "line 1 of the deck: the name has no"),
    (b"app a\nEXIT\nend\n", "the line `app a` has a malformed name"), (b"app a A0\nEXIT\nend\n", "the line `app a` has a malformed name"),
    (b"app a A000000001\nEXIT\n", "the section `app a` has no end"), (b"app a A000000001\nend\n", "the section `app a` has no code"),
    (b"app a A000000001\nDATA 0\nEXIT\nend\n", "line 2 of the deck: DATA has no"), (b"app a A000000001\nEXIT\nend\nload a x y\n", "line 4 of the deck: load has two sizes"),
    (b"app a A000000001\nEXIT\nend\nload a -1 99999999999\n", "line 4 of the deck: load has two sizes"),
    (b"app a A000000001\n\xff\xfe\nend\n", "melcard asm ended with 1: line 1 UnknownWord"), (b"app a A000000001\nnonsense\nend\n", "melcard asm ended with 1: line 1 UnknownWord")]


@pytest.mark.parametrize("content, why", GARBAGE)
def test_garbage_is_a_sentence(tmp_path, content, why):
    deck = tmp_path / "garbage.deck"
    deck.write_bytes(content)
    made = outline(deck, "a", "--into", tmp_path / "a")
    assert (made.returncode, made.stdout) == (2, "") and made.stderr.startswith(f"outline: {why}") and made.stderr.count("\n") == 1
    assert not (tmp_path / "a").exists()


def test_an_outline_that_is_garbage_differs(deck, tmp_path):
    file = tmp_path / "garbage.antt"
    file.write_bytes(bytes(range(256)) * 3)
    made = outline(deck, "ticket", "--check", file)
    assert (made.returncode, made.stdout) == (2, "") and made.stderr.startswith("outline: ") and made.stderr.count("\n") == 1
