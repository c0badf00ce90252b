"""A card in a test: starts `melreader` and sends it commands. Python 3.9 and its standard library alone.

    from card import Card

    with Card("examples/counter.deck") as card:
        assert card.transmit(bytes.fromhex("00A4040C05A000000001")).hex() == "9000"
        card.cut(3, bytes(8))                                      # pull the card in the third write of the next line
        assert card.transmit(bytes.fromhex("8001000002")) == b""   # no answer
        card.reset()
        assert card.transmit(bytes.fromhex("00A4040C05A000000001")).hex() == "9000"
        assert card.dump("A000000001") == b"\\0\\2"                  # as `melcard play` dumps it; of a draft card.static("count")
        card.keep("session.deck")                                  # the session as a deck, with its answers as expectations

`docs/READER.md` has the frames and the commands to the reader itself; `card.fixture` is a plugin for pytest.
"""

from .cards import Card
from .decks import Refused, aid_of, deck_of, names_of, text_of
from .programs import program_path
from .readers import ATR, BUDGET, CUT, DONE, FAIL, POWER_OFF, RESET, Reader, ReaderEnded, framed, is_answered
from .sessions import Session

__all__ = ["ATR", "BUDGET", "CUT", "Card", "DONE", "FAIL", "POWER_OFF", "RESET", "Reader", "ReaderEnded", "Refused", "Session",
           "aid_of", "deck_of", "framed", "is_answered", "names_of", "program_path", "text_of"]
