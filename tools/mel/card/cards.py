"""A card under power, as a test sees it."""

from __future__ import annotations

import subprocess
from types import TracebackType
from typing import Optional, Type, Union

from .decks import Path, aid_of, names_of, opened
from .programs import program_path
from .readers import ATR, BUDGET, CUT, DONE, FAIL, POWER_OFF, RESET, Reader, ReaderEnded


class Card:
    """A card under power, on which the deck was played: a path, or none for a blank card. `record` names a file that has the session's
    deck after every command.

    # Errors

    OSError, if there is no such deck or program; `ReaderEnded`, if the deck is refused.
    """

    def __init__(self, deck: Optional[Path] = None, program: Optional[Path] = None, record: Optional[Path] = None) -> None:
        self.reader = Reader(deck, program, record)
        try:
            self.atr()
            self.reset()
        except ReaderEnded:
            self.reader.close()
            raise

    def atr(self) -> bytes:
        """The answer to reset."""
        return self.reader.ask(ATR)

    def reset(self) -> None:
        """Powers the card up: what a cut left is recovered, and nothing is selected."""
        self.reader.send(RESET)

    def off(self) -> None:
        """Takes power away, until the next `reset`."""
        self.reader.send(POWER_OFF)

    def transmit(self, command: Union[bytes, str]) -> bytes:
        """The reply to a command, as bytes or in hexadecimal with blanks anywhere between bytes: its data and its two status bytes; no
        bytes if the card gives no answer, since power was cut, no card runs or it is mute.

        # Errors

        ValueError, if the command is no hexadecimal, or has less than two bytes."""
        if isinstance(command, str):
            try:
                command = bytes.fromhex(command)
            except ValueError:
                raise ValueError(f"a command is bytes, or whole bytes in hexadecimal, and {command!r} is neither") from None
        if len(command) < 2:
            raise ValueError("a command has two bytes at least")
        return self.reader.ask(bytes(command))

    def cut(self, k: int, fill: bytes = bytes(8)) -> None:
        """Cuts power in the `k`-th device write of the next command or reset, and leaves `fill`, 8 bytes, in its word."""
        self._arm(CUT, k.to_bytes(4, "big") + bytes(fill))

    def fail(self, k: int) -> None:
        """Lets the device refuse the `k`-th write of the next command or reset."""
        self._arm(FAIL, k.to_bytes(4, "big"))

    def budget(self, n: int) -> None:
        """Lets commands from here on run `n` instructions, 1 to 65,536."""
        self._arm(BUDGET, n.to_bytes(4, "big"))

    def dump(self, aid: str) -> Optional[bytes]:
        """The static bytes of an application, by its AID in hexadecimal or the name of its section, or None if it is absent. `melcard`
        plays the session so far and a line `dump`; the card itself is not asked.

        # Errors

        ValueError, if no section of the deck has this name, or no card runs: `reset` it first."""
        return dumped(self.session(), aid_of(self.reader.draft, aid))

    def static(self, name: str, section: Optional[str] = None) -> bytes:
        """The static bytes that a name of the draft stands for, as `dump` has them. `section` is one whose names are meant, if several have
        this name.

        # Errors

        ValueError, if the draft has no such name, or several, or its application is absent; and as `dump`."""
        names = names_of(self.reader.draft)
        if not names:
            raise ValueError("meldesk has no names of this card's deck")
        found = [it for it in names if it.get("name") == name and it.get("register") == "SB" and section in (None, it["section"])]
        if len(found) != 1:
            sections = ", ".join(it["section"] for it in found)
            raise ValueError(f"{name} is the name of static bytes in several sections: {sections}" if found else f"no static bytes are named {name}")
        place = found[0]
        fixed = self.dump(place["aid"])
        if fixed is None:
            raise ValueError(f"{place['section']} is absent")
        return fixed[place["offset"]:place["offset"] + place["size"]]

    def session(self) -> str:
        """The session so far as a deck, with its answers as expectations: `mellab expect` holds of it."""
        return self.reader.session.text()

    def keep(self, path: Path) -> None:
        """Writes the session so far to a file."""
        with opened(path, "w") as file:
            file.write(self.session())

    def close(self) -> int:
        """Ends the reader, and the card with it. Gives the status of the program."""
        return self.reader.close()

    def _arm(self, command: bytes, value: bytes) -> None:
        status = self.reader.ask(command + b"\0\0" + bytes([len(value)]) + value)
        if status != DONE:
            raise ValueError(f"the reader refused {command.hex()} {value.hex()}: {status.hex()}")

    def __enter__(self) -> Card:
        return self

    def __exit__(self, kind: Optional[Type[BaseException]], value: Optional[BaseException], trace: Optional[TracebackType]) -> None:
        self.close()


def dumped(deck: str, aid: str) -> Optional[bytes]:
    """The result of a line `dump AID` at the end of a deck, as bytes, or None if the application is absent."""
    text = f"{deck}dump {aid}\n".encode("utf-8", "surrogateescape")
    played = subprocess.run([program_path("melcard"), "play"], input=text, stdout=subprocess.PIPE, check=False)
    last = played.stdout.decode(errors="replace").splitlines()[-1:] or ["nothing"]
    fields = last[0].split()
    if played.returncode == 0 and fields[1:2] == ["static"]:
        return bytes.fromhex("".join(fields[2:]))
    if played.returncode == 0 and fields[1:] == ["absent"]:
        return None
    raise ValueError(f"a dump of {aid} has no bytes: {' '.join(fields[1:]) or last[0]}")
