"""Reads what `mellab` writes, and the decks that it is of: for tools/mel/junit.py, tools/mel/report.py and tools/mel/sweep_svg.py.

Python 3.9 and its standard library alone.
"""

import re
import signal
import sys
from dataclasses import dataclass, field
from pathlib import Path
from typing import Dict, List, Optional, Tuple

WORDS = ("before", "after", "same", "between", "torn")
# The statuses of the programs: what each means.
MEANINGS = {0: "held", 1: "failed", 2: "wrong words", 3: "no input", 4: "no output", 5: "out of memory",
            6: "not all was explored"}

# The words with which a draft declares names; no deck has them.
DECLARES = ("STATIC", "SESSION", "PUBLIC", "CONST")

SWEPT = re.compile(r"line (\d+) writes (\d+):((?: [a-z]+ \d+-\d+)+)( not whole)?$")
RUN = re.compile(r" ([a-z]+) (\d+)-(\d+)")
SWEEP_SUMS = re.compile(r"swept (\d+) writes (\d+) plays (\d+)$")
DIFFERS = re.compile(r"line (\d+) expected (.*?) was ([0-9A-Za-z ]*) \(line (\d+) (.*)\)$")
EXPECT_SUMS = re.compile(r"expected (\d+) failed (\d+)$")
DEPTH = re.compile(r"depth (\d+) states (\d+)$")
EXPLORED = re.compile(r"explored states (\d+) tries (\d+) (all|depth \d+)$")
BROKEN = re.compile(r"broken (\S+) after (\d+) lines?$")
SILENT = re.compile(r"silent line (\d+)$")
NOT_SWEPT = re.compile(r"line (\d+) not swept$")
# Of `prove`: a key, a broken rule, a place of unknown control, and the end. Behind ` ; ` is help.
KEY = re.compile(r"(?:idle|session)((?: \w+ \d+)*):")
BROKEN_RULE = re.compile(r"broken (\S+) line (\d+)(?: at ([0-9A-F]{4}))?(?: ; .*)?$")
UNKNOWN = re.compile(r"unknown ([0-9A-F]{4})(?: ; .*)?$")
PROVED = re.compile(r"(?:not )?proved keys (\d+)$")
REFUSAL = re.compile(r"line (\d+) ([A-Z]\w*)$")


class BadText(Exception):
    """A line that `mellab` does not write."""


def end_with_reader() -> None:
    """Lets the program end when the one that reads it does, as other filters do."""
    if hasattr(signal, "SIGPIPE"):
        signal.signal(signal.SIGPIPE, signal.SIG_DFL)


# ---- decks


def read(path: str) -> str:
    """The text of a file, whatever bytes stand in it, with its line ends as they are."""
    with open(path, encoding="utf-8", errors="replace", newline="") as file:
        return file.read()


def read_given(path: str) -> str:
    """The text of a file, or of the standard input if the path is -."""
    return sys.stdin.buffer.read().decode("utf-8", "replace") if path == "-" else read(path)


def write(text: str) -> None:
    """Writes a text to the standard output in UTF-8, whatever the locale is. Bytes of the command line that the locale has no characters for
    are written as they came."""
    try:
        content = text.encode("utf-8", "surrogateescape")
    except UnicodeEncodeError:
        content = text.encode("utf-8", "replace")
    sys.stdout.flush()
    sys.stdout.buffer.write(content)
    sys.stdout.buffer.flush()


def lines_of(text: str) -> List[str]:
    """The lines of a deck: a line ends with a line feed, and one carriage return before it is dropped; the last line may lack it."""
    lines = text.split("\n")
    return [line[:-1] if line.endswith("\r") else line for line in (lines[:-1] if lines[-1] == "" else lines)]


def fields_of(line: str) -> List[str]:
    """The fields of a line of a deck, which blanks and tabs separate."""
    return [field for field in re.split("[ \t]", line) if field]


def draft_hint(refused: Tuple[int, str], lines: List[str]) -> str:
    """What is said besides of a refused line that only a draft may have, or nothing."""
    number, cause = refused
    is_draft = cause == "UnknownWord" and 0 < number <= len(lines) and fields_of(lines[number - 1])[:1] in [[it] for it in DECLARES]
    return ": this is a draft, of which `meldesk deck` makes the deck" if is_draft else ""


@dataclass
class Remark:
    """A comment of a deck that `mellab` reads: its number, the mark that it begins with, and what follows it."""

    number: int
    mark: str
    text: str


def remarks_of(lines: List[str]) -> List[Remark]:
    """The expectations (`#>`) and the rules (`#@`) of a deck, none of which is in a section of assembly. An expectation needs no blank
    after its mark."""
    found, is_section = [], False
    for number, line in enumerate(lines, 1):
        fields = fields_of(line)
        if is_section:
            is_section = fields != ["end"]
        elif fields[:1] == ["app"]:
            is_section = True
        elif fields and (fields[0].startswith("#>") or fields[0] == "#@"):
            found.append(Remark(number, fields[0][:2], line.strip(" \t")[2:].strip(" \t")))
    return found


# ---- what is written of them


@dataclass
class Swept:
    """A swept line: its number, its writes, its runs as (word, first, last), and whether it must be whole and is not."""

    number: int
    writes: int
    runs: List[Tuple[str, int, int]]
    is_broken: bool = False

    def has(self, word: str) -> bool:
        """Whether a run has this word."""
        return any(it == word for it, _, _ in self.runs)


@dataclass
class Failed:
    """An expectation that failed: what it expected, what the result was, and the statement with the number of its line."""

    wanted: str
    was: str
    line: int
    statement: str


@dataclass
class Text:
    """What a job wrote of a deck; `kind` is `expect`, `sweep`, `explore`, `prove` or `refused`, or empty if nothing was written. `silent` are the
    rules that no try fits, `unswept` the marks that are of no swept line, `unproved` the lines of what was not proved, by the rule's number or
    by 0, `amounts` the names that keys have an amount of."""

    kind: str = ""
    is_whole: bool = False
    last: str = ""
    refused: Optional[Tuple[int, str]] = None
    failed: Dict[int, Failed] = field(default_factory=dict)
    swept: List[Swept] = field(default_factory=list)
    depths: List[Tuple[int, int]] = field(default_factory=list)
    broken: Optional[str] = None
    path: List[str] = field(default_factory=list)
    silent: List[int] = field(default_factory=list)
    unswept: List[int] = field(default_factory=list)
    unproved: List[Tuple[int, str]] = field(default_factory=list)
    amounts: List[str] = field(default_factory=list)

    def says(self, kind: str, number: int) -> None:
        """Takes in that a line is of a job, which is that of all lines."""
        if self.kind not in ("", kind):
            raise BadText(f"line {number} is of {kind}, and those before it of {self.kind}")
        self.kind = kind


def swept_line(found: "re.Match[str]", number: int) -> Swept:
    """A swept line, which was found in line `number` of a text."""
    runs = [(word, int(first), int(last)) for word, first, last in RUN.findall(found.group(3))]
    if any(word not in WORDS for word, _, _ in runs):
        raise BadText(f"line {number}: no such word: {found.group()}")
    return Swept(int(found.group(1)), int(found.group(2)), runs, found.group(4) is not None)


def read_text(text: str) -> Text:
    """What a job of `mellab` wrote; it may have been cut off between two lines."""
    made, lines = Text(), lines_of(text)
    for number, line in enumerate(lines, 1):
        if made.broken is not None:
            made.path.append(line)
            continue
        if found := SWEPT.match(line):
            made.says("sweep", number)
            made.swept.append(swept_line(found, number))
        elif found := DIFFERS.match(line):
            made.says("expect", number)
            made.failed[int(found.group(1))] = Failed(found.group(2), found.group(3), int(found.group(4)), found.group(5))
        elif found := DEPTH.match(line):
            made.says("explore", number)
            made.depths.append((int(found.group(1)), int(found.group(2))))
        elif found := BROKEN.match(line):
            made.says("explore", number)
            made.broken, made.is_whole = found.group(1), True
        elif found := SILENT.match(line):
            made.says("explore", number)
            made.silent.append(int(found.group(1)))
        elif found := NOT_SWEPT.match(line):
            made.says("sweep", number)
            made.unswept.append(int(found.group(1)))
        elif found := KEY.match(line):
            made.says("prove", number)
            made.amounts = list(dict.fromkeys([*made.amounts, *found.group(1).split()[::2]]))
        elif found := BROKEN_RULE.match(line) or UNKNOWN.match(line):
            made.says("prove", number)
            made.unproved.append((int(found.group(2)) if line.startswith("broken") else 0, line))
        elif kind := sums_of(line):
            made.says(kind, number)
            made.is_whole = True
        elif (found := REFUSAL.match(line)) and len(lines) == 1:
            made.kind, made.refused = "refused", (int(found.group(1)), found.group(2))
        else:
            raise BadText(f"line {number}: {line}")
        made.last = line
    return made


def sums_of(line: str) -> Optional[str]:
    """The job that ends with such a line, or None."""
    kinds = {"sweep": SWEEP_SUMS, "expect": EXPECT_SUMS, "explore": EXPLORED, "prove": PROVED}
    return next((kind for kind, form in kinds.items() if form.match(line)), None)


# ---- campaigns


@dataclass
class Job:
    """A job of a campaign: its name, its deck as it was named, its status, where its text lies, what was read there, the lines of the deck, and
    where the deck lies."""

    name: str
    deck: str
    status: int
    path: Path
    text: Text
    lines: List[str]
    source: Path

    @property
    def stem(self) -> str:
        """The name of the deck, without its folder and ending."""
        return Path(self.deck).stem


def jobs_of(folder: Path, decks: Path) -> List[Job]:
    """The jobs of a campaign's folder: one for each line `STATUS DECK` of each `NAME.verdicts`, whose text lies at `DECK.NAME`. The decks
    are looked for from the folder `decks` on."""
    found = []
    for verdicts in sorted(folder.glob("*.verdicts")):
        for number, line in enumerate(read(str(verdicts)).splitlines(), 1):
            status, _, deck = line.partition(" ")
            if not status.isdigit() or not deck:
                raise BadText(f"{verdicts}: line {number} is no `STATUS DECK`: {line}")
            path, source = folder / f"{Path(deck).stem}.{verdicts.stem}", decks / deck
            text = read_text(read(str(path))) if path.is_file() else Text()
            lines = lines_of(read(str(source))) if source.is_file() else []
            found.append(Job(verdicts.stem, deck, int(status), path, text, lines, source))
    return sorted(found, key=lambda it: (it.stem, it.name))
