"""A session is the deck that it is recorded as, whatever a host sends: `mellab expect` holds of it.

It needs pytest, and the programs, built by tools/build or by `rt ci`.
"""

import pathlib
import random
import subprocess

import pytest
from card import ReaderEnded, program_path

TOP = pathlib.Path(__file__).resolve().parent.parent.parent
PURSE = TOP / "examples/host/purse.deck"
SELECT = bytes.fromhex("00A4040C05A000000002")
PAY = bytes.fromhex("8001000004")
READ = bytes.fromhex("8002000004")
# What may stand behind the purse's deck: stops that are armed, a card that was cut, a small budget.
ENDS = ["", "cut 3 0000000000000000\n", "fail 2\n", "power\nselect A000000002\ncut 2 FFFFFFFFFFFFFFFF\napdu 8001000004\n", "budget 3\n"]
# Decks of cards without an application, the last ones with words that are no card.
BARE = ["format\n", "format\npoke 130 1122334455667788\n", "format\npoke 0 1122334455667788\n"]


def some_deck(draw):
    """A deck to begin with, or none."""
    kind = draw.randrange(6)
    if kind == 0:
        return None
    return draw.choice(BARE) if kind == 1 else PURSE.read_text(encoding="utf-8") + draw.choice(ENDS)


def some_call(draw, card):
    """One call of a host."""
    kind = draw.randrange(12)
    if kind < 4:
        card.transmit(draw.choice([SELECT, PAY, PAY, READ]))
    elif kind == 4:
        card.cut(draw.randrange(1, 9), draw.choice([bytes(8), b"\xff" * 8]))
    elif kind == 5:
        card.fail(draw.randrange(1, 9))
    elif kind == 6:
        card.budget(draw.choice([1, 5, 10000]))
    elif kind == 7:
        card.off()
    elif kind == 8:
        card.transmit(bytes(draw.randrange(256) for _ in range(draw.randrange(2, 9))))
    else:
        card.reset()
        if kind < 11:
            card.transmit(SELECT)


@pytest.mark.parametrize("seed", range(150))
def test_a_session_holds_as_a_deck(card, tmp_path, seed):
    draw = random.Random(seed)
    deck, start = some_deck(draw), None
    if deck is not None:
        start = tmp_path / "start.deck"
        start.write_text(deck, encoding="utf-8")
    record = tmp_path / "session.deck"
    one = card(start, record=record)
    for _ in range(draw.randrange(5, 60)):
        some_call(draw, one)
    assert record.read_text(encoding="utf-8") == one.session()
    done = subprocess.run([program_path("mellab"), "expect"], input=one.session().encode(), stdout=subprocess.PIPE, check=False)
    assert done.returncode == 0, done.stdout.decode()


def test_line_ends_and_bytes_of_a_deck_are_kept(card, tmp_path):
    start = tmp_path / "start.deck"
    start.write_bytes(b"# \xff\rone line\r\nformat\r\npower")
    one = card(start)
    assert one.session().splitlines()[-3:] == ["format", "power", "power"]


def test_a_missing_deck_is_named(card):
    with pytest.raises(FileNotFoundError, match="nosuch.deck"):
        card("nosuch.deck")


def test_a_refused_deck_ends_the_reader(card, tmp_path):
    start = tmp_path / "start.deck"
    start.write_text("format\nnonsense\n", encoding="utf-8")
    with pytest.raises(ReaderEnded, match="line 2 BadLine"):
        card(start)


def test_a_dump_needs_a_card_that_runs(card):
    one = card(PURSE)
    one.transmit(SELECT)
    assert one.dump("A000000002") == b"\0\x64\0\0"
    assert one.dump("A000000009") is None
    one.cut(1)
    assert one.transmit(PAY) == b""
    with pytest.raises(ValueError, match="off"):
        one.dump("A000000002")
