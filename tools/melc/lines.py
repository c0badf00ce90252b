"""Lines of C: takes a draft and what a program wrote of it, and returns the text with lines of C in the place of lines of the draft.

`trace`, `check`, `list` and `explain` of meldesk have the line of an instruction in each of their lines; `steps` has it as `source`, `cover` in
its records, whose counts are added up. What has no line of C stays as it is.
"""

from __future__ import annotations

import re
import sys
from dataclasses import dataclass, field
from typing import Dict, Iterator, List, Optional, TextIO, Tuple

# A line of a section: what stands before its comment, and the file and the line in that.
NOTED = re.compile(r"[^;]*; ([^;:]+):(\d+)(?= |$)")
LOCAL = re.compile(r"; local ([A-Za-z_]\w*)\.([A-Za-z_]\w*) LB\[(-?\d+)\],(\d+) ; ([^;:]+):(\d+)$")
LINES = re.compile(r"; lines ([A-Za-z_]\w*) ; ([^;:]+):(\d+)-(\d+)$")
TURN = re.compile(r"(> .*? ; |\d+ refuse .*? ; )(\d+)( .*)$")
LISTED = re.compile(r"([0-9A-F]{4} [0-9A-F]+ )(\d+)( .*)$")
STEP = re.compile(r'(\{"turn":.*?"source":)(\d+)(,.*)$')
EXPLAINED = re.compile(r"[^:]*:(\d+):(\d+)(: .*)$")
NUMBERED = re.compile(r"\bline (\d+)\b")
NOT_READ, NOT_WRITTEN = 3, 4

Place = Tuple[str, int]


@dataclass
class Local:
    """A local: its function, its name, its offset from LB, its size, and the line that declares it."""

    function: str
    name: str
    offset: int
    size: int
    place: Place


@dataclass
class Lines:
    """What a draft says of C: the place of each of its lines, its locals, and the lines of its functions."""

    places: Dict[int, Place] = field(default_factory=dict)
    locals: List[Local] = field(default_factory=list)
    functions: List[Tuple[str, str, int, int]] = field(default_factory=list)

    def function(self, place: Place) -> Optional[str]:
        """Returns the function that has a line, or None."""
        found = [(last - first, name) for name, file, first, last in self.functions if file == place[0] and first <= place[1] <= last]
        return min(found)[1] if found else None

    def named(self, number: int) -> Optional[str]:
        """Returns the place of a line of the draft as it is written, or None if it has none."""
        found = self.places.get(number)
        return f"{found[0]}:{found[1]}" if found is not None else None


def lines_of(draft: str) -> Lines:
    """Returns what a draft says of C."""
    found = Lines()
    for number, line in enumerate(draft.split("\n"), 1):
        if local := LOCAL.match(line):
            found.locals.append(Local(local[1], local[2], int(local[3]), int(local[4]), (local[5], int(local[6]))))
        elif function := LINES.match(line):
            found.functions.append((function[1], function[2], int(function[3]), int(function[4])))
        elif noted := NOTED.match(line):
            found.places[number] = (noted[1], int(noted[2]))
    return found


# ---- the filter


def line_of(lines: Lines, line: str) -> str:
    """Returns a line of a text other than `cover` with its line of C."""
    for form in (TURN, LISTED, STEP):
        if found := form.match(line):
            place = lines.places.get(int(found[2]))
            if place is None:
                return line
            if form is STEP:
                return f'{found[1]}{place[1]},"file":"{place[0]}"{found[3]}'
            return f"{found[1]}{place[0]}:{place[1]}{found[3]}"
    if (found := EXPLAINED.match(line)) and (named := lines.named(int(found[1]))):
        return f"{named}:1{found[3]}"
    if line.startswith(("line ", "broken ", "unknown ", "silent ", "other ")):
        return NUMBERED.sub(lambda it: lines.named(int(it[1])) or it[0], line)
    return line


@dataclass
class Counts:
    """What a file's lines and branches ran."""

    lines: Dict[int, int] = field(default_factory=dict)
    ways: Dict[Tuple[int, str], Optional[int]] = field(default_factory=dict)

    def text(self, name: str) -> Iterator[str]:
        """Returns the record of a file."""
        yield from ("TN:", f"SF:{name}")
        for number in sorted(self.lines):
            yield f"DA:{number},{self.lines[number]}"
        for number, way in sorted(self.ways):
            count = self.ways[number, way]
            yield f"BRDA:{number},{way},{'-' if count is None else count}"
        yield f"BRF:{len(self.ways)}"
        yield f"BRH:{sum(bool(it) for it in self.ways.values())}"
        yield f"LF:{len(self.lines)}"
        yield f"LH:{sum(bool(it) for it in self.lines.values())}"
        yield "end_of_record"


def record_of(lines: Lines, record: List[str]) -> Iterator[str]:
    """Returns a record of `cover` as one record for each file of C, and one for the lines that have none."""
    files: Dict[str, Counts] = {}
    name = next((it[3:] for it in record if it.startswith("SF:")), "")
    for line in record:
        word, _, rest = line.partition(":")
        if word not in ("DA", "BRDA"):
            continue
        number, _, more = rest.partition(",")
        file, at = lines.places.get(int(number), (name, int(number)))
        counts = files.setdefault(file, Counts())
        if word == "DA":
            counts.lines[at] = counts.lines.get(at, 0) + int(more)
        else:
            way, _, count = more.rpartition(",")
            before = counts.ways.get((at, way))
            counts.ways[at, way] = before if count == "-" else (before or 0) + int(count)
    if not files:
        yield from record
    for file, counts in files.items():
        yield from counts.text(file)


def filtered(lines: Lines, source: TextIO) -> Iterator[str]:
    """Returns the lines of a text with lines of C."""
    record: List[str] = []
    for line in source:
        line = line.rstrip("\n")
        if record or line == "TN:":
            record.append(line)
            if line == "end_of_record":
                yield from record_of(lines, record)
                record = []
        else:
            yield line_of(lines, line)
    yield from record


def main(draft: str) -> int:
    """Filters the standard input; returns the status."""
    try:
        with open(draft, encoding="utf-8", errors="surrogateescape") as file:
            lines = lines_of(file.read())
    except OSError as why:
        print(f"melc: {draft}: {why.strerror}", file=sys.stderr)
        return NOT_READ
    for stream in (sys.stdin, sys.stdout):
        if hasattr(stream, "reconfigure"):
            stream.reconfigure(encoding="utf-8", errors="surrogateescape")
    try:
        for line in filtered(lines, sys.stdin):
            print(line)
        sys.stdout.flush()
    except BrokenPipeError:
        sys.stderr.close()
        return 0
    except OSError as why:
        print(f"melc: the standard output: {why.strerror}", file=sys.stderr)
        return NOT_WRITTEN
    return 0
