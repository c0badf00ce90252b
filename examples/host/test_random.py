"""Random sessions with a purse, with power cut anywhere: Hypothesis looks for one that breaks a promise, and shrinks it to a short deck.

It needs pytest and Hypothesis (Debian: python3-pytest, python3-hypothesis), and melreader and melcard, built by tools/build or by `rt ci`.

The model is what the host may believe: a payment that was answered is made, one that got no answer is made or not, and nothing else changes a
purse. A session that breaks it is shown as the deck that it is, the shortest that Hypothesis finds; `melcard play` plays it.
"""

import pathlib

import pytest

pytest.importorskip("hypothesis", reason="Hypothesis is not there (Debian: python3-hypothesis)")

from card import Card  # noqa: E402
from hypothesis import settings, strategies  # noqa: E402
from hypothesis.stateful import RuleBasedStateMachine, precondition, rule, run_state_machine_as_test  # noqa: E402

DECK = pathlib.Path(__file__).with_name("purse.deck")
PURSE = "A000000002"
SELECT = bytes.fromhex("00A4040C05A000000002")
PAY = bytes.fromhex("8001000004")
READ = bytes.fromhex("8002000004")
DONE = b"\x90\x00"
FILLS = strategies.sampled_from([bytes(8), b"\xff" * 8, bytes.fromhex("0123456789ABCDEF")])
WRITES = strategies.integers(1, 12)


class Sessions(RuleBasedStateMachine):
    """A host that selects, pays, reads, pulls the card and powers it up again, in any order."""

    deck = DECK

    def __init__(self):
        super().__init__()
        self.card = Card(self.deck)
        # The balances that the purse may have, one if the host knows it; whether a cut is armed, and whether one may have left no card that runs.
        self.balances = {100}
        self.is_selected = self.is_armed = self.is_dead = False

    def teardown(self):
        self.card.close()

    def agrees(self, is_so, what):
        """Fails with the session as a deck, if something is not so."""
        if not is_so:
            raise AssertionError(f"{what}; the session as a deck:\n{self.card.session()}")

    def send(self, command):
        """The answer to a command, empty if the card gave none."""
        answer = self.card.transmit(command)
        self.agrees(answer or self.is_armed or not self.is_selected or self.is_dead, "no answer, and nothing cut power")
        self.is_armed = False
        if not answer:
            self.is_selected, self.is_dead = False, True
        return answer

    @rule()
    def reset(self):
        self.card.reset()
        # A cut that was armed may have hit the power-up.
        self.is_dead, self.is_selected, self.is_armed = self.is_armed, False, False

    @rule(k=WRITES, fill=FILLS)
    def cut(self, k, fill):
        self.card.cut(k, fill)
        self.is_armed = True

    @rule()
    def select(self):
        answer = self.send(SELECT)
        if answer:
            self.is_selected, self.is_dead = answer == DONE, False

    @precondition(lambda self: self.is_selected)
    @rule()
    def pay(self):
        answer = self.send(PAY)
        paid = {it - 1 for it in self.balances}
        if not answer:
            self.balances |= paid
            return
        self.agrees(answer[-2:] == DONE and int.from_bytes(answer[:2], "big") in paid, f"a payment was answered {answer.hex()}")
        self.balances = {int.from_bytes(answer[:2], "big")}

    @precondition(lambda self: self.is_selected)
    @rule()
    def read(self):
        answer = self.send(READ)
        if answer:
            balance, spent = int.from_bytes(answer[:2], "big"), int.from_bytes(answer[2:4], "big")
            self.agrees(answer[-2:] == DONE and balance in self.balances, f"the balance is {balance}, and none of {sorted(self.balances)}")
            self.agrees(balance + spent == 100, f"{balance} and {spent} are not 100")
            self.balances = {balance}


def test_no_session_breaks_the_purse():
    run_state_machine_as_test(Sessions, settings=settings(max_examples=60, stateful_step_count=30, deadline=None))


def test_a_session_that_breaks_a_torn_purse_is_shrunk(tmp_path):
    """The purse without its transaction: a cut between the two writes loses one."""
    torn = tmp_path / "torn.deck"
    torn.write_text(DECK.read_text(encoding="utf-8").replace("PRIM 3,2\n", "").replace("PRIM 3,1\n", ""), encoding="utf-8")
    broken = type("Torn", (Sessions,), {"deck": torn})
    with pytest.raises(AssertionError, match="are not 100; the session as a deck") as why:
        run_state_machine_as_test(broken, settings=settings(max_examples=200, stateful_step_count=30, deadline=None, database=None))
    deck = str(why.value).partition("the session as a deck:\n")[2]
    sent = [line.split()[0] for line in deck.partition("\nend\n")[2].splitlines() if line[:1].isalpha()]
    # The load, power on and the shortest session: a payment that is cut, and a look at what is left.
    assert sent == ["load", "power", "apdu", "cut", "apdu", "power", "apdu", "apdu"], deck
