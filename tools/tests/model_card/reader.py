"""The card in a reader: frames of `melreader` on the standard streams, and the same as calls for a test."""

from __future__ import annotations

import argparse
import sys
from typing import FrozenSet, Optional

from .card import Card

ATR = bytes.fromhex("3B8780014D454C434152 4456".replace(" ", ""))
LENGTHS = {0xC0: 12, 0xC1: 4, 0xC2: 4}


class Reader:
    """A reader with a card in it."""

    def __init__(self, faults: FrozenSet[str] = frozenset()) -> None:
        self.card, self.has_power = Card(faults), False

    def order(self, command: bytes) -> bytes:
        """A command to the reader itself: `cut`, `fail` or `budget`."""
        if len(command) < 5 or len(command) != 5 + command[4] or LENGTHS.get(command[1], command[4]) != command[4]:
            return b"\x67\x00"
        if command[1] not in LENGTHS:
            return b"\x6D\x00"
        number = int.from_bytes(command[5:9], "big")
        if command[2:4] != b"\0\0":
            return b"\x6A\x86"
        if not number or command[1] == 0xC2 and number > 65536:
            return b"\x6A\x80"
        if command[1] == 0xC2:
            self.card.budget = number
        else:
            self.card.memory.arm("cut" if command[1] == 0xC0 else "fail", number, command[9:] or bytes(8))
        return b"\x90\x00"

    def frame(self, content: bytes) -> Optional[bytes]:
        """Returns the answer to a frame, or None if it has none."""
        if content in (b"\1", b"\2"):
            self.has_power = True
            self.card.power()
        elif content == b"\0":
            self.has_power = False
        elif content == b"\4":
            return ATR
        elif len(content) >= 2 and content[0] == 0xFF:
            return self.order(content)
        elif len(content) >= 2:
            return self.card.transmit(content) if self.has_power else b""
        return None


def main() -> None:
    """Serves frames until the input ends."""
    words = argparse.ArgumentParser(description="A card in plain Python behind melreader's frames.")
    words.add_argument("--fault", action="append", default=[], help="the name of a fault")
    reader = Reader(frozenset(words.parse_args().fault))
    while len(size := sys.stdin.buffer.read(2)) == 2:
        answer = reader.frame(sys.stdin.buffer.read(int.from_bytes(size, "big")))
        if answer is not None:
            sys.stdout.buffer.write(len(answer).to_bytes(2, "big") + answer)
            sys.stdout.buffer.flush()


if __name__ == "__main__":
    main()
