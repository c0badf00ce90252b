"""A till: a host that takes one from a purse, once, whatever happens to the card while it pays.

The card promises that a transaction is whole or not there at all. So a till that got no answer reads the purse again, and pays again only if
nothing was taken.
"""

SELECT = bytes.fromhex("00A4040C05A000000002")
PAY = bytes.fromhex("8001000004")
READ = bytes.fromhex("8002000004")
DONE = b"\x90\x00"
ATTEMPTS = 3


class NotPaid(Exception):
    """The card went away too often, or refused."""


class Till:
    """A till with a purse in it. The card is anything with `transmit(command)` and `reset()`."""

    def __init__(self, card):
        self.card = card
        self.balance = self.read()

    def pay(self):
        """Takes one from the purse, and gives the new balance."""
        for _ in range(ATTEMPTS):
            if self.answer(PAY) is None:
                self.card.reset()
            balance = self.read()
            if balance != self.balance:
                self.balance = balance
                return balance
        raise NotPaid

    def read(self):
        """The balance, on a card that may have to be powered up again."""
        for _ in range(ATTEMPTS):
            if self.answer(SELECT) is not None:
                data = self.answer(READ)
                if data is not None:
                    return int.from_bytes(data[:2], "big")
            self.card.reset()
        raise NotPaid

    def answer(self, command):
        """The data of an answer, or None if the card gave none."""
        reply = self.card.transmit(command)
        if not reply:
            return None
        if reply[-2:] != DONE:
            raise NotPaid(reply.hex())
        return reply[:-2]
