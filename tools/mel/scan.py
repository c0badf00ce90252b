#!/usr/bin/env python3
"""Sends every INS, with every length and every P1, to an application, and shows which answers are not 6D00.

    mel scan DECK NAME [--cla XX] [--but STATUS] [--longest N] [--whole]

The deck is played on a card, and the application NAME selected: an AID in hexadecimal, or the name of a section. Each INS is sent with P1 and P2 of 0 and 0 to N bytes of data, all zeros, without and with an
Le of 00; then with each other P1, without data and with the shortest and the longest data of each answer other than STATUS. With --whole each
P1 is sent with each length, which takes minutes. Runs of lengths or of P1 with one answer are one line; what another P1 answers is shown where
it is not what P1 00 answers. A card is new for each INS, and is reset before each command: what a command keeps in static bytes, as a try that
is spent, is there for the next one.

It needs Python 3.9, the package `card` beside it, and `melreader`; a draft needs `meldesk` too. It ends with 2 if it is called wrongly or the
deck is refused.
"""

import argparse
import re
import sys
from typing import Dict, Iterator, List, Tuple

from card import Card, ReaderEnded, aid_of, text_of

# The data bytes of a command, or None for one without any, and whether it has an Le.
Length = Tuple[int, bool]


def command(cla: int, ins: int, p1: int, length: Length) -> bytes:
    """A command of zeros."""
    count, has_le = length
    data = bytes([count]) + bytes(count) if count else b""
    return bytes([cla, ins, p1, 0]) + data + (b"\0" if has_le else b"")


def word_of(answer: bytes) -> str:
    """What an answer is shown as: its status, and how many bytes of data it has."""
    if not answer:
        return "no answer"
    count = len(answer) - 2
    return answer[-2:].hex().upper() + (f" and {count} byte{'s' if count > 1 else ''}" if count else "")


class Scan:
    """An application that commands are sent to."""

    def __init__(self, given: argparse.Namespace) -> None:
        self.given = given
        aid = bytes.fromhex(aid_of(text_of(given.deck), given.aid))
        self.select = bytes.fromhex("00A4040C") + bytes([len(aid)]) + aid

    def answer(self, card: Card, ins: int, p1: int, length: Length) -> str:
        """The answer to a command, after a reset and a selection."""
        card.reset()
        if card.transmit(self.select) != b"\x90\x00":
            raise ValueError(f"{self.given.aid} cannot be selected")
        return word_of(card.transmit(command(self.given.cla, ins, p1, length)))

    def lines(self) -> Iterator[str]:
        """What is shown, INS by INS."""
        for ins in range(256):
            with Card(self.given.deck) as card:
                yield from self.of_ins(card, ins)

    def of_ins(self, card: Card, ins: int) -> Iterator[str]:
        """What is shown of one INS."""
        lengths = [(count, has_le) for has_le in (False, True) for count in range(self.given.longest + 1)]
        found = {it: self.answer(card, ins, 0, it) for it in lengths}
        for has_le in (False, True):
            shown = runs_of([(count, word) for (count, le), word in found.items() if le == has_le and word != self.given.but])
            yield from (line(ins, "00", numbers, has_le, word) for numbers, word in shown)
        for count, has_le in lengths if self.given.whole else ends_of(found, self.given.but):
            words = [(p1, self.answer(card, ins, p1, (count, has_le))) for p1 in range(1, 256)]
            shown = runs_of([(p1, word) for p1, word in words if word not in (found[count, has_le], self.given.but)], "02X")
            yield from (line(ins, numbers, f"{count}", has_le, word) for numbers, word in shown)


def ends_of(found: Dict[Length, str], but: str) -> List[Length]:
    """No data, and the shortest and the longest data of each answer other than `but`."""
    by_word: Dict[str, List[Length]] = {}
    for length, word in found.items():
        by_word.setdefault(word, []).append(length)
    ends = {end for word, lengths in by_word.items() if word != but for end in (min(lengths), max(lengths))}
    return sorted({(0, False), (0, True), *ends})


def runs_of(words: List[Tuple[int, str]], form: str = "") -> List[Tuple[str, str]]:
    """The runs of numbers in order that have one word, each as `A` or `A-B` and the word."""
    runs: List[Tuple[int, int, str]] = []
    for number, word in words:
        if runs and runs[-1][1:] == (number - 1, word):
            runs[-1] = runs[-1][0], number, word
        else:
            runs.append((number, number, word))
    return [(format(first, form) + (f"-{format(last, form)}" if last > first else ""), word) for first, last, word in runs]


def line(ins: int, p1: str, lengths: str, has_le: bool, word: str) -> str:
    """A line of what is shown."""
    return f"INS {ins:02X} P1 {p1} data {lengths}{' with Le' if has_le else ''}: {word}"


def class_of(word: str) -> int:
    """The class that a word of the command line is."""
    if not re.fullmatch("[0-9A-Fa-f]{1,2}", word):
        raise argparse.ArgumentTypeError(f"{word} is no class: it has two hexadecimal digits")
    return int(word, 16)


def main() -> int:
    words = argparse.ArgumentParser(description="Sends every INS, length and P1 to an application, and shows which answers are not 6D00.")
    words.add_argument("deck", metavar="DECK", help="the deck that is played first")
    words.add_argument("aid", metavar="NAME", help="the application: its AID in hexadecimal, or the name of its section")
    words.add_argument("--cla", type=class_of, default=0x80, metavar="XX", help="the class, two hexadecimal digits (80)")
    words.add_argument("--but", default="6D00", help="the answer that is not shown (6D00)")
    words.add_argument("--longest", type=int, default=40, help="how many bytes of data are sent at the most, up to 255 (40)")
    words.add_argument("--whole", action="store_true", help="send each P1 with each length")
    given = words.parse_args()
    if not 0 <= given.longest <= 255:
        words.error("--longest is 0 to 255")
    try:
        for text in Scan(given).lines():
            print(text, flush=True)
    except BrokenPipeError:
        # Whoever reads the lines has ended. What is left of them cannot be written either.
        sys.stderr.close()
    except (OSError, ReaderEnded, ValueError) as why:
        print(f"scan.py: {why}", file=sys.stderr)
        return 2
    return 0


if __name__ == "__main__":
    sys.exit(main())
