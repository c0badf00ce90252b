"""`melreader` as a program that runs: frames go in and out."""

from __future__ import annotations

import os
import subprocess
import tempfile
from types import TracebackType
from typing import IO, List, Optional, Type

from .decks import Path, Refused, deck_of, opened, text_of
from .programs import program_path
from .sessions import Session

POWER_OFF = b"\x00"
RESET = b"\x02"
ATR = b"\x04"

# Classes and instructions of the commands to the reader itself.
CUT = b"\xff\xc0"
FAIL = b"\xff\xc1"
BUDGET = b"\xff\xc2"

DONE = b"\x90\x00"


class ReaderEnded(Exception):
    """`melreader` has ended. The message is what it wrote, such as the line of a refused deck."""

    def __init__(self, status: int, message: str) -> None:
        super().__init__(f"melreader ended with {status}: {message}")
        self.status = status


def framed(content: bytes) -> bytes:
    """A frame: the length in two bytes, and the content."""
    return len(content).to_bytes(2, "big") + content


def is_answered(content: bytes) -> bool:
    """Whether the reader answers such a frame: every command, and the wish for an ATR."""
    return len(content) >= 2 or content == ATR


def asked_deck(text: str) -> str:
    """The deck of a draft."""
    try:
        return deck_of(text)
    except Refused as why:
        raise ReaderEnded(1, str(why)) from None


def started(program: str, deck: Optional[Path], text: Optional[str]) -> subprocess.Popen[bytes]:
    """The program, on a deck of this path. It reads a deck alone, so it gets that of a draft as a file without a name."""
    pipe = subprocess.PIPE
    if deck is None or text is None or text == text_of(deck):
        words = [program, *([] if deck is None else [os.fspath(deck)])]
        return subprocess.Popen(words, stdin=pipe, stdout=pipe, stderr=pipe)
    with tempfile.TemporaryFile() as file:
        file.write(text.encode("utf-8", "surrogateescape"))
        file.flush()
        return subprocess.Popen([program, f"/dev/fd/{file.fileno()}"], stdin=pipe, stdout=pipe, stderr=pipe, pass_fds=[file.fileno()])


class Reader:
    """A `melreader` that runs, on a card on which a deck or a draft was played. Frames go in and out; each of them is kept as a line of the
    session, and `record` names a file that has the session's deck after every frame.

    # Errors

    OSError, if there is no such deck or program, or the record cannot be written; `ReaderEnded`, once the program has ended.
    """

    def __init__(self, deck: Optional[Path] = None, program: Optional[Path] = None, record: Optional[Path] = None) -> None:
        # What the file has, whose names are those of the card's bytes.
        self.draft = "" if deck is None else text_of(deck)
        text = None if deck is None else asked_deck(self.draft)
        self.session = Session(text)
        self._record: Optional[IO[str]] = None
        if record is not None:
            self._record = opened(record, "w")
            self._keep(self.session.lines)
        process = started(os.fspath(program or program_path()), deck, text)
        assert process.stdin is not None and process.stdout is not None and process.stderr is not None
        self.process, self._input, self._output, self._errors = process, process.stdin, process.stdout, process.stderr
        self._asked: Optional[bytes] = None

    def send(self, content: bytes) -> None:
        """Sends a frame."""
        try:
            self._input.write(framed(content))
            self._input.flush()
        except BrokenPipeError:
            raise self._ended() from None
        self._asked = content if is_answered(content) else None
        if self._asked is None:
            self._keep(self.session.add(content, None))

    def receive(self) -> bytes:
        """The content of the next answer."""
        answer = self._read(int.from_bytes(self._read(2), "big"))
        if self._asked is not None:
            self._keep(self.session.add(self._asked, answer))
            self._asked = None
        return answer

    def ask(self, content: bytes) -> bytes:
        """Sends a frame and gives the content of its answer."""
        self.send(content)
        return self.receive()

    def close(self) -> int:
        """Ends the program: its input ends, and the card with it. Gives its status."""
        try:
            self._input.close()
        except BrokenPipeError:
            pass
        status = self.process.wait()
        self._output.close()
        self._errors.close()
        if self._record is not None:
            self._record.close()
        return status

    def _keep(self, lines: List[str]) -> None:
        """Writes lines of the session to the record, if there is one."""
        if self._record is not None and lines:
            self._record.write("".join(f"{line}\n" for line in lines))
            self._record.flush()

    def _read(self, count: int) -> bytes:
        content = self._output.read(count)
        if len(content) < count:
            raise self._ended()
        return content

    def _ended(self) -> ReaderEnded:
        message = self._errors.read().decode(errors="replace").strip()
        return ReaderEnded(self.process.wait(), message)

    def __enter__(self) -> Reader:
        return self

    def __exit__(self, kind: Optional[Type[BaseException]], value: Optional[BaseException], trace: Optional[TracebackType]) -> None:
        self.close()
