"""What a writer gives to `mel`: a draft, a deck, or an application in C, which `melc` compiles to a draft."""

from __future__ import annotations

import contextlib
import importlib
import io
import os
import re
import sys
import tempfile
from dataclasses import dataclass, field
from pathlib import Path
from typing import Callable, List, Optional, Tuple

HERE = Path(__file__).resolve().parent
# What is put behind the draft of a file in C, if it lies beside it: the commands with their expectations, then the rules.
BESIDE = (".tests", ".rules")
# How melc notes the line of C in a line of its draft.
NOTED = re.compile(r"; ([^;]*\.c:\d+)(?: |$)")
NOT_INSTALLED = "melc is not installed here"
NO_PARSER = "the parser of melc is not installed here (Debian: python3-pycparser)"


class NotRead(Exception):
    """Why a source is no draft. The message is one sentence."""


@dataclass
class Source:
    """A draft: its name, the file that the writer gave, its text, and of C the files that come after the compiled one, each with the number
    of its first line."""

    name: str
    path: Path
    draft: bytes
    after: List[Tuple[Path, int]] = field(default_factory=list)

    @property
    def is_c(self) -> bool:
        """Returns whether the draft was compiled from C."""
        return self.path.suffix == ".c"

    def place(self, number: int) -> str:
        """Returns where a line of the draft comes from: `line 12`, or of C `badge.c:23`, `badge.tests:2`."""
        if not self.is_c:
            return f"line {number}"
        found = [(path, first) for path, first in self.after if first <= number]
        if found:
            return f"{found[-1][0].name}:{number - found[-1][1] + 1}"
        lines = self.draft.decode("utf-8", "replace").split("\n")
        noted = NOTED.search(lines[number - 1]) if 0 < number <= len(lines) else None
        return noted[1] if noted is not None else f"line {number} of its draft"

    def placed(self, text: str) -> str:
        """Returns a text with the places of the lines that it names."""
        return re.sub(r"\bline (\d+)\b", lambda it: self.place(int(it[1])), text) if self.is_c else text


def melc_main() -> Tuple[Optional[Callable[[List[str]], int]], str]:
    """Returns the program `melc`, or None and why it cannot be run: it, or the parser that it needs, is not installed."""
    if str(HERE.parent) not in sys.path:
        sys.path.append(str(HERE.parent))
    for name in ("melc", "melc.main"):
        try:
            found = getattr(importlib.import_module(name), "main", None)
        except ImportError as error:
            if error.name == "pycparser":
                return None, NO_PARSER
            continue
        if callable(found):
            return found, ""
    return None, NOT_INSTALLED


def melc_for(path: Path) -> Callable[[List[str]], int]:
    """Returns the program `melc`, for a file in C.

    # Errors

    NotRead, if it cannot be run.
    """
    main, why = melc_main()
    if main is None:
        raise NotRead(f"{path} is written in C, and {why}")
    return main


def compiled(path: Path) -> Source:
    """Returns the draft of an application in C, with what lies beside it.

    # Errors

    NotRead, if melc is not there or refuses it: its messages are on the standard error.
    """
    main = melc_for(path)
    with tempfile.TemporaryDirectory(prefix="melcard-c-") as folder:
        draft = Path(folder, f"{path.stem}.draft")
        with contextlib.redirect_stdout(io.StringIO()):
            status = main([os.fspath(path), "-o", os.fspath(draft)])
        if status or not draft.is_file():
            raise NotRead(f"{path} is refused by melc")
        text, after = draft.read_bytes(), []
    for it in map(path.with_suffix, BESIDE):
        if it.is_file():
            after.append((it, text.count(b"\n") + 1))
            text += it.read_bytes()
    return Source(path.stem, path, text, after)


def read(path: Path) -> Source:
    """Returns the draft of a file: of a draft or a deck its text, of C what melc makes of it.

    # Errors

    NotRead, if there is no such file, or melc does not compile it.
    """
    try:
        return compiled(path) if path.suffix == ".c" else Source(path.stem, path, path.read_bytes())
    except OSError as error:
        raise NotRead(f"{path} cannot be read: {error.strerror}") from None


def paths_of(given: List[str]) -> List[Path]:
    """Returns the files that are meant: those that are named, those of folders that are named, or those of the working folder.

    # Errors

    NotRead, if there is none.
    """
    named = [Path(it) for it in given] or [Path(".")]
    found = [path for it in named for path in (found_in(it) if it.is_dir() else [it])]
    if not found:
        raise NotRead(f"{named[0].resolve()} has no draft: `mel new NAME` makes one")
    return found


def watched(path: Path) -> List[Path]:
    """Returns the files of which a source is made."""
    return [path, *map(path.with_suffix, BESIDE)] if path.suffix == ".c" else [path]


def found_in(folder: Path) -> List[Path]:
    """Returns the drafts of a folder in the order of their names, or if it has none its files in C."""
    return sorted(folder.glob("*.draft")) or sorted(folder.glob("*.c"))
