"""A session with `melreader` as the deck that it is: the deck that it began with, and a line for each frame of the host."""

from __future__ import annotations

from typing import List, Optional, Tuple

CARD_LINES = ("power", "load", "select", "delete", "apdu")
# The commands to the reader itself: the statement of each, and the bytes of its number.
STATEMENTS = {b"\xff\xc0": "cut", b"\xff\xc1": "fail", b"\xff\xc2": "budget"}
ACCEPTED = b"\x90\x00"
REFUSED_WRITE = b"\x65\x81"


def lines_of(deck: str) -> List[str]:
    """The lines of a deck: a line ends with a line feed, and one carriage return before it is dropped; the last line may lack it."""
    lines = deck.split("\n")
    return [line[:-1] if line.endswith("\r") else line for line in (lines[:-1] if lines[-1] == "" else lines)]


def armed_in(lines: List[str]) -> Optional[Tuple[str, int]]:
    """The stop that a deck leaves armed behind its last line, as its statement and its number, or None."""
    armed, is_section = None, False
    for line in lines:
        fields = [field for field in line.replace("\t", " ").split(" ") if field]
        if is_section or not fields:
            is_section = is_section and fields != ["end"]
        elif fields[0] == "app":
            is_section = True
        elif fields[0] in ("cut", "fail") and len(fields) > 1 and fields[1].isdigit():
            armed = fields[0], int(fields[1])
        elif fields[0] in CARD_LINES:
            armed = None
    return armed


class Session:
    """The lines of a session so far. Each answer of the card is an expectation behind its line.

    A session is at most a deck: 20,000 lines and 1,048,576 bytes, of which nothing is tested here.
    """

    def __init__(self, deck: Optional[str] = None) -> None:
        self.lines = ["format"] if deck is None else lines_of(deck)
        self._armed = armed_in(self.lines)
        self._has_power = False
        # Whether a card runs (None: it is not known), and what a line answers if none does.
        self._runs: Optional[bool] = False
        self._silence = "off"

    def text(self) -> str:
        """The deck."""
        return "".join(f"{line}\n" for line in self.lines)

    def add(self, content: bytes, answer: Optional[bytes]) -> List[str]:
        """Takes in a frame of the host and its answer, None if the frame has none, and returns the lines that came of it."""
        if content in (b"\1", b"\2"):
            found = self._power()
        elif content == b"\0":
            self._has_power, found = False, []
        elif len(content) < 2 or answer is None:
            found = []
        elif content[0] == 0xFF:
            found = self._statement(content, answer)
        else:
            found = self._command(content, answer) if self._has_power else []
        self.lines += found
        return found

    def _power(self) -> List[str]:
        """Power on and a reset are a line `power`, whose result no frame answers."""
        self._has_power = True
        # The words may be no card, or a stop may come: it is known with the next answer.
        self._runs, self._silence = None, self._silence_of_stop()
        self._armed = None
        return ["power"]

    def _silence_of_stop(self) -> str:
        """What later lines answer if the armed stop comes, or the words are no card: `mute` or `off`, if a write may be refused."""
        return "*" if self._armed is not None and self._armed[0] == "fail" else "off"

    def _statement(self, content: bytes, answer: bytes) -> List[str]:
        """A command to the reader is its statement, if the reader took it."""
        statement = STATEMENTS.get(content[:2])
        if statement is None or answer != ACCEPTED:
            return []
        number = int.from_bytes(content[5:9], "big")
        if statement == "budget":
            return [f"budget {number}"]
        self._armed = statement, number
        return [f"{statement} {number}" + (f" {content[9:].hex().upper()}" if statement == "cut" else "")]

    def _command(self, content: bytes, answer: bytes) -> List[str]:
        """Any other command is a line `apdu`, and its answer an expectation."""
        armed, self._armed = self._armed, None
        return [f"apdu {content.hex().upper()}", f"#> {self._result(armed, answer)}"]

    def _result(self, armed: Optional[Tuple[str, int]], answer: bytes) -> str:
        """A pattern for the result of a line that was answered so. 6F CC is an abend, or the reply of an application."""
        if answer:
            # 65 81 is the refused write, or the reply of an application.
            may_be_mute = answer == REFUSED_WRITE and armed is not None and armed[0] == "fail"
            self._runs, self._silence = None if may_be_mute else True, "mute" if may_be_mute else "off"
            is_abend = len(answer) == 2 and answer[0] == 0x6F
            return f"*{answer[1]:02X}" if is_abend else answer.hex().upper()
        did_run, was_silence, self._runs = self._runs, self._silence, False
        if armed is None or armed[0] != "cut" or did_run is False:
            return was_silence
        self._silence = "off" if did_run or was_silence == "off" else "*"
        return f"off at write {armed[1]}" if did_run else f"{self._silence.rstrip('*')}*"
