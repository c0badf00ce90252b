#!/usr/bin/env python3
"""Sends the commands of decks to a card in a PC/SC reader, and compares each answer with the one of `melcard play`.

    tools/mel/conform.py [--format COMMAND] [--reset COMMAND] [--cut COMMAND] [--virtual] [--program PROGRAM] READER DECK..

READER is a part of the reader's name, as pcsc_scan shows it; `melreader` is that program itself, or PROGRAM, without PC/SC. A folder stands for
the decks in it. Where an answer differs, there is a line with the deck, the line, the statement and both answers; at the end a line for each
topic, which is the folder of its decks. `conformance/` has decks by topic.

What a deck's statement is for the card:

    format          COMMAND of --format; without it each application that a deck names is deleted
    power           a cold reset by the reader, or COMMAND of --reset
    load            OPEN, the pieces of the sections, CREATE, as `load` sends them
    select, delete, apdu    the command
    cut K FILL      COMMAND of --cut with K and FILL in its environment: a relay that takes power away in a write of the next command
    fail, budget    with --virtual alone
    dump            nothing: no command shows static bytes, so that another line has to

With --virtual the reader is melreader's, and takes cut, fail and budget as commands of class FF. Where a deck has a statement that cannot be
done, its lines from there on are left out and counted, as are all lines of a deck with `poke`. `abend CC` is the answer 6FCC. What melcard
answers with `off` or `mute` is sent to a program alone, since a host of a reader would wait for the answer. Class FF is not sent, since PC/SC
keeps it for readers.

It needs Python 3.9, `melcard`, and pyscard for PC/SC (Debian: python3-pyscard, for /usr/bin/python3). It ends with 1 if an answer differs, and
with 2 if there is no such reader, card or deck.
"""

import argparse
import os
import subprocess
import sys
import time
from pathlib import Path
from typing import Dict, Iterator, List, Optional, Tuple, Union

import card
from card import Card, ReaderEnded, Refused, program_path
from labtexts import fields_of, lines_of, read_text
from units import BadUnit, Unit, delete_command, load_commands, names_of, select_command, statements, units_of

PATIENCE = 30.0  # seconds, until a card that was pulled is given up
SETTLED = 1.5  # seconds, in which a reader has noticed that its card was pulled
# Selects nothing on any card, and is answered by each that runs.
PROBE = bytes.fromhex("00A4040C05FFFFFFFFFF")
NO_ANSWER = "no answer"
BUDGET = "10000"  # of each deck, until a line says otherwise
STOPS = {"cut": b"\xff\xc0", "fail": b"\xff\xc1", "budget": b"\xff\xc2"}


class NotDone(Exception):
    """Why nothing is compared."""


class CannotDo(Exception):
    """A statement that cannot be done on this card."""


# ---- cards


class ProgramCard:
    """The card of `melreader` itself."""

    # It gives no power by itself, and answers at once where a card in a reader would be waited for.
    was_pulled, is_waited_for = False, False

    def __init__(self, program: Optional[str]) -> None:
        self.card = Card(program=program)
        self.program = program

    def format(self) -> None:
        """A new card."""
        self.card.close()
        self.card = Card(program=self.program)

    def reset(self) -> None:
        """A cold reset."""
        self.card.off()
        self.card.reset()

    def send(self, command: bytes) -> bytes:
        """The answer to a command, no bytes if there is none."""
        return self.card.transmit(command) if command[0] != 0xFF else self.card.reader.ask(command)

    def close(self) -> None:
        """Ends the program."""
        self.card.close()


class PcscCard:
    """A card in a PC/SC reader."""

    is_waited_for = True

    def __init__(self, name: str) -> None:
        try:
            from smartcard import scard
        except ImportError:
            raise NotDone(f"{sys.executable} has no package smartcard: Debian's python3-pyscard is for /usr/bin/python3, others take "
                          "`pip install pyscard`") from None
        self.scard = scard
        result, self.context = scard.SCardEstablishContext(scard.SCARD_SCOPE_USER)
        if result != scard.SCARD_S_SUCCESS:
            raise NotDone(f"no PC/SC: {scard.SCardGetErrorMessage(result)}")
        readers = scard.SCardListReaders(self.context, [])[1]
        found = [it for it in readers if name in it]
        if not found:
            raise NotDone(f"no reader has {name} in its name: {', '.join(readers) or 'there is none'}")
        self.name, self.handle, self.protocol, self.was_pulled = found[0], None, 0, False
        self.connect()

    def connect(self) -> None:
        """Connects to the card, as soon as it is there."""
        scard, end = self.scard, time.monotonic() + PATIENCE
        while True:
            result, handle, protocol = scard.SCardConnect(self.context, self.name, scard.SCARD_SHARE_EXCLUSIVE,
                                                          scard.SCARD_PROTOCOL_T0 | scard.SCARD_PROTOCOL_T1)
            if result == scard.SCARD_S_SUCCESS:
                self.handle, self.protocol = handle, protocol
                return
            if time.monotonic() > end:
                raise NotDone(f"no card in {self.name}: {scard.SCardGetErrorMessage(result)}")
            time.sleep(0.1)

    def reset(self) -> None:
        """A cold reset: the reader takes power away and gives it again. A card that was pulled is waited for."""
        if self.was_pulled:
            self.scard.SCardDisconnect(self.handle, self.scard.SCARD_LEAVE_CARD)
            time.sleep(SETTLED)
            self.connect()
            self.was_pulled = False
        result, self.protocol = self.scard.SCardReconnect(self.handle, self.scard.SCARD_SHARE_EXCLUSIVE, self.protocol,
                                                          self.scard.SCARD_UNPOWER_CARD)
        if result != self.scard.SCARD_S_SUCCESS:
            self.connect()

    def send(self, command: bytes) -> bytes:
        """The answer to a command, no bytes if there is none."""
        form = self.scard.SCARD_PCI_T0 if self.protocol == self.scard.SCARD_PROTOCOL_T0 else self.scard.SCARD_PCI_T1
        result, answer = self.scard.SCardTransmit(self.handle, form, list(command))
        if result == self.scard.SCARD_S_SUCCESS and answer:
            return bytes(it % 256 for it in answer)
        self.was_pulled = True
        return b""

    def close(self) -> None:
        """Lets the card go."""
        self.scard.SCardDisconnect(self.handle, self.scard.SCARD_UNPOWER_CARD)
        self.scard.SCardReleaseContext(self.context)


Device = Union[ProgramCard, PcscCard]


# ---- a deck


def hook(command: str, **values: str) -> None:
    """Runs a command of the user with values in its environment."""
    done = subprocess.run(command, shell=True, env={**os.environ, **values}, check=False)
    if done.returncode:
        raise NotDone(f"`{command}` ended with {done.returncode}")


def expected(path: Path, deck: str) -> Dict[int, str]:
    """The results of a deck by its lines, as `melcard play` has them."""
    done = subprocess.run([program_path("melcard"), "play"], input=deck.encode("utf-8", "surrogateescape"), stdout=subprocess.PIPE, check=False)
    lines = done.stdout.decode(errors="replace").splitlines()
    if done.returncode:
        raise NotDone(f"{path}: melcard ended with {done.returncode}: {' '.join(lines)}")
    return {int(number): result for number, _, result in (line.partition(" ") for line in lines)}


def answer_of(result: str) -> str:
    """What a host sees of a result."""
    if result.startswith("abend "):
        return f"6F{result[6:]}"
    return NO_ANSWER if result.startswith(("off", "mute")) else result


def writes_of(front: List[str], commands: List[bytes]) -> List[int]:
    """How many device writes each of these commands makes behind a deck, by `mellab sweep`."""
    deck = [*front, *(f"apdu {it.hex().upper()}" for it in commands)]
    armed = card.sessions.armed_in(front)
    if armed is not None:
        # The stop is for these commands.
        deck[max(place for place, line in enumerate(front) if fields_of(line)[:1] == [armed[0]])] = "#"
    done = subprocess.run([program_path("mellab"), "sweep"], input="".join(f"{line}\n" for line in deck).encode(), stdout=subprocess.PIPE, check=False)
    swept = {it.number: it.writes for it in read_text(done.stdout.decode()).swept}
    return [swept.get(len(front) + place, 0) for place in range(1, len(commands) + 1)]


class Run:
    """A deck that is sent to a card."""

    def __init__(self, given: argparse.Namespace, device: Device, lines: List[str]) -> None:
        self.given, self.device, self.lines = given, device, lines
        self.units: Dict[str, Unit] = units_of(lines)
        # The `cut` or `fail` that the next line to the card uses up.
        self.armed: Optional[List[str]] = None
        self.had_power = False

    def shown(self, command: bytes) -> str:
        """The answer to a command, as a transcript has it."""
        return self.device.send(command).hex().upper() or NO_ANSWER

    def format(self) -> None:
        """Makes the card a blank one."""
        if self.given.format is not None:
            hook(self.given.format)
        elif isinstance(self.device, ProgramCard):
            self.device.format()
        else:
            self.device.reset()
            for aid in self.given.aids:
                self.device.send(delete_command(aid))
            if self.given.virtual:
                self.order(["budget", BUDGET])

    def power(self, result: str) -> str:
        """Powers the card up, and sees whether it runs. A card in a reader is not asked if it should not run, since a host would wait for it."""
        if self.given.reset is not None:
            hook(self.given.reset)
        self.had_power = True
        self.device.reset()
        if not result.startswith("ready"):
            return answer_of(result) if self.device.is_waited_for or not self.device.send(PROBE) else "ready"
        return result if self.device.send(PROBE) else NO_ANSWER

    def arm(self) -> None:
        """Arms the stop that is due, if there is one, for the next command or reset."""
        if self.armed is not None:
            fields, self.armed = self.armed, None
            if self.device.was_pulled:
                raise CannotDo("a card that was pulled has its power back before a stop of that power-up can be armed")
            self.order(fields)

    def order(self, fields: List[str]) -> None:
        """Lets the reader or a relay do a `cut`, `fail` or `budget`."""
        if fields[0] == "cut" and self.given.cut is not None:
            hook(self.given.cut, K=fields[1], FILL=fields[2])
        elif not self.given.virtual:
            raise CannotDo(f"{fields[0]} needs " + ("--cut or --virtual" if fields[0] == "cut" else "--virtual"))
        else:
            value = int(fields[1]).to_bytes(4, "big") + bytes.fromhex("".join(fields[2:]))
            answer = self.device.send(STOPS[fields[0]] + b"\0\0" + bytes([len(value)]) + value)
            if answer != b"\x90\x00":
                raise CannotDo(f"the reader answers {fields[0]} with {answer.hex().upper() or NO_ANSWER}")

    def load(self, number: int, fields: List[str]) -> str:
        """Loads a unit: the answer to CREATE, or the first that is not 9000. A stop counts the writes of the line, and falls in one command."""
        commands = list(load_commands(self.units[fields[1]], int(fields[2]), int(fields[3])))
        counts = [0] * len(commands) if self.armed is None else writes_of(self.lines[:number - 1], commands)
        found, before = "9000", 0
        for command, count in zip(commands, counts):
            if self.armed is not None and int(self.armed[1]) <= before + count:
                self.armed[1] = str(int(self.armed[1]) - before)
                self.arm()
            before += count
            found = self.shown(command)
            if found != "9000":
                break
        self.armed = None
        return found

    def statement(self, number: int, fields: List[str], result: str) -> Optional[str]:
        """What the card does at a statement, or None if nothing is seen of it."""
        word = fields[0]
        if word in ("power", "select", "delete", "apdu"):
            self.arm()
        if word == "format":
            self.format()
        elif word == "power":
            return self.power(result)
        elif word in ("cut", "fail"):
            self.armed = list(fields)
        elif word == "budget":
            self.order(fields)
        elif word == "load":
            return self.load(number, fields)
        elif word == "select":
            return self.shown(select_command(fields[1]))
        elif word == "delete":
            return self.shown(delete_command(fields[1]))
        elif word == "apdu" and not fields[1].upper().startswith("FF"):
            return self.shown(bytes.fromhex(fields[1]))
        elif word == "poke":
            raise CannotDo("poke: a card has no command that sets its words")
        return None

    def answers(self, results: Dict[int, str]) -> Iterator[Tuple[int, str, str, str]]:
        """Each line that is seen: its number, its statement, the card's answer and the one of melcard."""
        for number, fields in statements(self.lines):
            result = results.get(number, "")
            # A card that does not run answers nothing, and a host that asks has to wait for it.
            if result in ("off", "mute") and fields[0] != "power" and (self.device.is_waited_for or not self.had_power):
                continue
            seen = self.statement(number, fields, result)
            if seen is not None:
                yield number, self.lines[number - 1].strip(), seen, answer_of(result) if fields[0] != "power" else result_of_power(result)


def result_of_power(result: str) -> str:
    """What a host sees of a `power` line: whether the card runs."""
    return result if result.startswith("ready") else answer_of(result)


# ---- the whole


class Topic:
    """What is known of the decks of a folder."""

    def __init__(self) -> None:
        self.decks = self.answers = self.differ = self.left_out = 0


def compare(given: argparse.Namespace, device: Device, path: Path, topic: Topic) -> None:
    """Sends a deck, and says where an answer differs."""
    deck = card.deck_of(card.text_of(path))
    results = expected(path, deck)
    run = Run(given, device, lines_of(deck))
    topic.decks += 1
    if any(fields[0] == "poke" for _, fields in statements(run.lines)):
        topic.left_out += len(results)
        return
    last = 0
    try:
        for number, statement, seen, wanted in run.answers(results):
            last = number
            topic.answers += 1
            if seen != wanted:
                topic.differ += 1
                print(f"{path}:{number}: {statement}: the card answers {seen}, and melcard {wanted}", flush=True)
    except CannotDo as why:
        left = [number for number in results if number > last]
        topic.left_out += len(left)
        print(f"{path}: left out from line {min(left, default=last + 1)} on: {why}", file=sys.stderr)


def decks_of(words: List[str]) -> List[Path]:
    """The decks that the words name, in their order; those of a folder by name."""
    found: List[Path] = []
    for path in map(Path, words):
        found += sorted(path.rglob("*.deck")) if path.is_dir() else [path]
    return found


def conform(given: argparse.Namespace) -> int:
    """Compares all decks, and gives the status to end with."""
    device: Device = ProgramCard(given.program) if given.reader == "melreader" else PcscCard(given.reader)
    given.virtual = given.virtual or given.reader == "melreader"
    topics: Dict[str, Topic] = {}
    paths = decks_of(given.decks)
    given.aids = list(dict.fromkeys(aid for path in paths for aid in names_of(lines_of(card.deck_of(card.text_of(path))))))
    try:
        for path in paths:
            compare(given, device, path, topics.setdefault(path.resolve().parent.name, Topic()))
    finally:
        device.close()
    for name, it in topics.items():
        rest = f", {it.left_out} lines left out" if it.left_out else ""
        print(f"{name}: {it.decks} decks, {it.answers} answers, {it.differ} differ{rest}")
    return 1 if any(it.differ for it in topics.values()) else 0


def main() -> int:
    words = argparse.ArgumentParser(description="Sends the commands of decks to a card in a PC/SC reader, and compares its answers with melcard's.")
    words.add_argument("reader", metavar="READER", help="a part of the reader's name; melreader: that program, without PC/SC")
    words.add_argument("decks", metavar="DECK", nargs="+", help="a deck, a draft, or a folder of decks")
    words.add_argument("--format", metavar="COMMAND", help="makes the card a blank one")
    words.add_argument("--reset", metavar="COMMAND", help="is run before each reset by the reader")
    words.add_argument("--cut", metavar="COMMAND", help="takes power away in write $K of the next command, and leaves $FILL in its word")
    words.add_argument("--virtual", action="store_true", help="the reader is melreader's: cut, fail and budget are commands to it")
    words.add_argument("--program", metavar="PROGRAM", help="the program that READER melreader stands for")
    given = words.parse_args()
    try:
        return conform(given)
    except (NotDone, OSError, ReaderEnded, Refused, BadUnit) as why:
        print(f"conform: {why}", file=sys.stderr)
        return 2


if __name__ == "__main__":
    sys.exit(main())
