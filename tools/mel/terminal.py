"""Colours, and programs that are run beside a line of progress: both on a terminal alone."""

from __future__ import annotations

import os
import subprocess
import sys
import time
from dataclasses import dataclass
from typing import IO, Callable, List, Optional

import watch

COLOURS = {"good": "32", "look": "33", "bad": "1;31", "quiet": "2"}
PERIOD = 0.25  # seconds between two looks at a program that runs
SHOWN = 0.5    # seconds after which its line appears
# Statuses with which the programs write nothing of what came to be.
ENDS = {3: "the input could not be read", 4: "the output could not be written", 5: "out of memory"}


def has_colour(stream: Optional[IO[str]]) -> bool:
    """Returns whether colours are written to a stream: a terminal, unless NO_COLOR is set or the terminal is dumb."""
    return stream is not None and stream.isatty() and "NO_COLOR" not in os.environ and os.environ.get("TERM") != "dumb"


def painted(text: str, kind: str) -> str:
    """Returns a text in a colour if the standard output has colours, else as it is. `kind` is a key of COLOURS."""
    return f"\033[{COLOURS[kind]}m{text}\033[0m" if kind in COLOURS and has_colour(sys.stdout) else text


def ended(program: str, status: int) -> str:
    """Returns how a program ended, with the meaning of its status."""
    if status < 0:
        return f"{program} was ended by signal {-status}"
    return f"{program} ended with status {status}" + (f": {ENDS[status]}" if status in ENDS else "")


def say_end(program: str, status: int) -> int:
    """Writes a line on the standard error if a program could not do its work, and returns its status."""
    if status < 0 or status in ENDS:
        print(f"mel: {ended(program, status)}", file=sys.stderr)
    return status


@dataclass
class Ran:
    """A program that has ended: its status, what it wrote, and how many seconds it took."""

    status: int
    text: str
    errors: str
    seconds: float


class Progress:
    """A line on the standard error, if that is a terminal, while something runs."""

    def __init__(self, label: str, is_shown: bool = True) -> None:
        self.label, self.begin, self.line = label, time.monotonic(), watch.Line()
        self.is_shown = is_shown and sys.stderr is not None and sys.stderr.isatty()

    def seconds(self) -> float:
        """Returns the seconds since it began."""
        return time.monotonic() - self.begin

    def show(self, pid: int, more: str = "") -> None:
        """Writes the line anew: the label, and what a process has taken so far."""
        if self.is_shown and self.seconds() >= SHOWN:
            self.line.show(f"{self.label} {watch.taken(pid, self.seconds(), None)}{', ' if more else ''}{more}")

    def clear(self) -> None:
        """Makes the line blank."""
        if self.is_shown:
            self.line.clear()


def run(words: List[str], given: bytes, label: str = "", more: Callable[[], str] = lambda: "", is_shown: bool = True) -> Ran:
    """Runs a program, with `given` as its standard input, beside a line of progress that begins with `label`; `more` returns what the
    line has besides. What was begun ends with this call, whatever ends it.

    # Errors

    OSError, if the program cannot be run.
    """
    progress = Progress(label, is_shown and label != "")
    with subprocess.Popen(words, stdin=subprocess.PIPE, stdout=subprocess.PIPE, stderr=subprocess.PIPE) as child:
        waiting: Optional[bytes] = given
        try:
            while True:
                try:
                    out, err = child.communicate(waiting, timeout=PERIOD)
                    break
                except subprocess.TimeoutExpired:
                    waiting = None
                    progress.show(child.pid, more())
        except BaseException:
            child.terminate()
            raise
        finally:
            progress.clear()
    return Ran(child.returncode, out.decode(errors="replace"), err.decode(errors="replace"), progress.seconds())
