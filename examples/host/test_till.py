"""A purse is pulled from a till at each of its writes: one payment is one payment.

It needs pytest (Debian: python3-pytest), and melreader, melcard and mellab, built by tools/build or by `rt ci`.
"""

import pathlib
import subprocess

import pytest
from card import program_path
from till import Till

DECK = pathlib.Path(__file__).with_name("purse.deck")
PURSE = "A000000002"
FILLS = [bytes(8), b"\xff" * 8]
# More writes than a payment, or a power on behind a cut one, makes.
WRITES = range(1, 12)


def purse(balance, spent):
    """The static bytes of a purse."""
    return balance.to_bytes(2, "big") + spent.to_bytes(2, "big")


@pytest.mark.parametrize("fill", FILLS, ids=["zeros", "ones"])
@pytest.mark.parametrize("k", WRITES)
def test_a_payment_that_is_cut_is_paid_once(card, k, fill):
    pulled = card(DECK)
    till = Till(pulled)
    pulled.cut(k, fill)
    assert till.pay() == 99
    assert pulled.dump(PURSE) == purse(99, 1)


@pytest.mark.parametrize("j", WRITES)
@pytest.mark.parametrize("k", WRITES)
def test_so_is_one_whose_recovery_is_cut_too(card, k, j):
    pulled = card(DECK)
    till = Till(Pulled(pulled, j))
    pulled.cut(k)
    assert till.pay() == 99
    assert pulled.dump(PURSE) == purse(99, 1)


def test_a_card_that_refuses_a_write_is_paid_from_after_its_reset(card):
    worn = card(DECK)
    till = Till(Worn(worn))
    worn.fail(3)
    assert till.pay() == 99
    assert worn.dump(PURSE) == purse(99, 1)


def test_a_session_is_a_deck_whose_expectations_hold(card, tmp_path):
    record = tmp_path / "session.deck"
    pulled = card(DECK, record=record)
    till = Till(pulled)
    for k in WRITES:
        pulled.cut(k)
        till.pay()
    assert till.balance == 100 - len(WRITES)
    with open(record, "rb") as deck:
        done = subprocess.run([program_path("mellab"), "expect"], stdin=deck, stdout=subprocess.PIPE, check=False)
    assert done.returncode == 0, done.stdout.decode()


class Pulled:
    """A card whose next reset is cut in its `j`-th write."""

    def __init__(self, card, j):
        self.card, self.j = card, j

    def transmit(self, command):
        return self.card.transmit(command)

    def reset(self):
        if self.j:
            self.card.cut(self.j)
            self.j = 0
        self.card.reset()


class Worn:
    """A card whose reply 6581 is taken for no answer."""

    def __init__(self, card):
        self.card, self.reset = card, card.reset

    def transmit(self, command):
        reply = self.card.transmit(command)
        return b"" if reply == b"\x65\x81" else reply
