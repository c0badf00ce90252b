"""`mel play` and `mel prove`: a draft, and what melcard and mellab write of it, for a reader."""

from __future__ import annotations

import argparse
import re
import subprocess
import sys
from pathlib import Path

import faults
import labtexts
import prove_html
import sources
import terminal
from card import names_of, program_path
from sources import NotRead, Source

RESULT = re.compile(r"(\d+) (.*)$")
GOOD = re.compile(r"(?:[0-9A-F]{2})*9000$|formatted$|ready |static |absent$")


def deck_of(source: Source) -> str:
    """Returns the deck of a draft.

    # Errors

    NotRead, with what `meldesk explain` writes of a draft that is refused.
    """
    made = terminal.run([program_path("meldesk"), "deck"], source.draft)
    if made.status:
        raise refused(source, made.errors.strip() or terminal.ended("meldesk", made.status))
    return made.text


def refused(source: Source, text: str) -> NotRead:
    """Returns why a deck was refused: the line that a program wrote, and what `meldesk explain` writes, or else the text of that line."""
    said = "\n".join(faults.said(source, it) for it in faults.faults_of(source)[0] if not it.is_warning)
    found, lines = labtexts.REFUSAL.match(text), labtexts.lines_of(source.draft.decode("utf-8", "replace"))
    if not said and found is not None and 0 < int(found[1]) <= len(lines):
        said = f"{source.place(int(found[1]))}: {lines[int(found[1]) - 1].strip()}"
    return NotRead(f"{source.path} is refused: {text}" + (f"\n{said}" if said else ""))


def add_play(words: argparse.ArgumentParser) -> None:
    """Adds the words of `mel play`."""
    words.add_argument("draft", metavar="DRAFT", help="a draft, a deck, or a file in C")
    form = words.add_mutually_exclusive_group()
    form.add_argument("--trace", action="store_true", help="write each instruction, as meldesk trace")
    form.add_argument("--raw", action="store_true", help="write the transcript alone, as melcard play")


def play(given: argparse.Namespace) -> int:
    """Plays a draft, and writes each statement with its result."""
    source = sources.read(Path(given.draft))
    if given.trace:
        return terminal.say_end("meldesk", subprocess.run([program_path("meldesk"), "trace"], input=source.draft, check=False).returncode)
    deck = deck_of(source)
    ran = terminal.run([program_path("melcard"), "play"], deck.encode("utf-8", "surrogateescape"), "play")
    if ran.status == 1:
        raise refused(source, ran.text.strip())
    labtexts.end_with_reader()
    if given.raw or ran.status:
        sys.stdout.write(ran.text)
        return terminal.say_end("melcard", ran.status)
    lines = labtexts.lines_of(source.draft.decode("utf-8", "replace"))
    rows = [(int(found[1]), found[2]) for found in map(RESULT.match, ran.text.splitlines()) if found]
    stated = {number: " ".join(lines[number - 1].split()) if 0 < number <= len(lines) else "" for number, _ in rows}
    width = min(60, max(map(len, stated.values()), default=0))
    for number, result in rows:
        place = source.place(number) if source.is_c else f"{number:>4}"
        print(f"{place} {stated[number]:<{width}}  {terminal.painted(result, 'good' if GOOD.match(result) else 'look')}")
    return 0


def add_prove(words: argparse.ArgumentParser) -> None:
    """Adds the words of `mel prove`."""
    words.add_argument("draft", metavar="DRAFT", help="a draft, a deck, or a file in C")
    words.add_argument("--page", metavar="FILE", help="write a page of HTML, too")


def prove(given: argparse.Namespace) -> int:
    """Proves the rules of a draft, and writes what mellab writes, with a line of progress on a terminal."""
    source = sources.read(Path(given.draft))
    ran = terminal.run([program_path("mellab"), "prove"], deck_of(source).encode("utf-8", "surrogateescape"), "prove")
    if ran.text.strip() == "line 0 NoApplication":
        raise NotRead(f"{source.path} has no rules to prove, no line `#@ app NAME`: `mel rules` prints some")
    if labtexts.REFUSAL.match(ran.text.strip()):
        raise refused(source, ran.text.strip())
    labtexts.end_with_reader()
    for line in ran.text.splitlines():
        kind = "bad" if line.startswith(("broken ", "unknown ", "not proved")) else "good" if line.startswith("proved ") else ""
        print(terminal.painted(line, kind))
    if given.page:
        names = prove_html.names_in(source.draft.decode("utf-8", "surrogateescape"))
        Path(given.page).write_text("".join(f"{line}\n" for line in prove_html.page(ran.text, names)), encoding="utf-8")
    return terminal.say_end("mellab", ran.status)
