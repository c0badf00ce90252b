"""Decks and drafts: a draft, in which bytes have names, is made a deck by `meldesk`."""

from __future__ import annotations

import json
import os
import re
import subprocess
from typing import IO, Any, Dict, List, Optional, Union

from .programs import program_path

Path = Union[str, "os.PathLike[str]"]


class Refused(ValueError):
    """A draft that `meldesk` refuses. The message is its line."""


def opened(path: Path, mode: str) -> IO[str]:
    """A file of a deck: whatever bytes stand in it stay as they are."""
    return open(path, mode, encoding="utf-8", errors="surrogateescape", newline="")


def text_of(path: Path) -> str:
    """The text of a file."""
    with opened(path, "r") as file:
        return file.read()


def desk(words: List[str], text: str) -> Optional[subprocess.CompletedProcess[bytes]]:
    """What `meldesk` does with a draft, or None if there is no such program."""
    try:
        program = program_path("meldesk")
    except FileNotFoundError:
        return None
    return subprocess.run([program, *words], input=text.encode("utf-8", "surrogateescape"), stdout=subprocess.PIPE, stderr=subprocess.PIPE,
                          check=False)


def deck_of(text: str) -> str:
    """The deck of a draft. A deck is a draft that makes itself; so it is where `meldesk` is not there, too.

    # Errors

    `Refused`, if `meldesk` refuses the draft."""
    done = desk(["deck"], text)
    if done is None:
        return text
    if done.returncode:
        raise Refused((done.stderr or done.stdout).decode(errors="replace").strip())
    return done.stdout.decode("utf-8", "surrogateescape")


def aid_of(text: str, name: str) -> str:
    """The AID of a name in hexadecimal: of 5 to 16 bytes in hexadecimal itself, else of the last section of a draft that is named so.

    # Errors

    ValueError, if the draft has no such section."""
    if re.fullmatch("(?:[0-9A-Fa-f]{2}){5,16}", name):
        return name.upper()
    sections = {fields[1]: fields[2] for fields in map(str.split, text.splitlines()) if fields[:1] == ["app"] and len(fields) == 3}
    if name not in sections:
        raise ValueError(f"{name} is no AID, and no section of the deck is named so; there are {', '.join(sections) or 'none'}")
    return sections[name].upper()


def names_of(text: str) -> List[Dict[str, Any]]:
    """The names of a draft as `meldesk names` has them, one dictionary a name: of bytes with `section`, `aid`, `name`, `register`, `offset`,
    `size` and `line`. No names, if the program has no such job."""
    done = desk(["names"], text)
    if done is None or done.returncode:
        return []
    return [json.loads(line) for line in done.stdout.decode(errors="replace").splitlines()]
