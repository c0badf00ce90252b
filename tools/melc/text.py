"""Text: takes the program and its lines of code, and returns the section, and the draft around it.

Each line of code ends with its line of C; the first of a run has the text of that line, too.
"""

from __future__ import annotations

from pathlib import Path
from typing import List

from .faults import At
from .layout import Line
from .lowering import Lowered
from .source import Source
from .tree import Program

MOST_TEXT = 100  # characters of a line of C


def place_of(at: At) -> str:
    """Returns a place as drafts have it: the file without its folder, and the line."""
    return f"{Path(at.file).name}:{at.line}"


def section(source: Source, program: Program, code: List[Line], made: Lowered, name: str) -> List[str]:
    """Returns the lines of the section."""
    lines = [f"app {name} {program.aid}"]
    for memory in ("static", "session", "public"):
        for it in program.variables:
            if it.memory != memory:
                continue
            front = f"{memory.upper()} {it.name} " + (f"{it.offset} " if memory == "public" else "") + str(it.kind.size)
            value = f" {it.initial.hex().upper()}" if it.initial is not None else ""
            lines.append(f"{front + value:<31} ; {place_of(it.at)}")
    last = None
    for line in code:
        front = f"{line.label + ':' if line.label else '':<8}{' ' if len(line.label) > 6 else ''}{line.code.text}".rstrip()
        if not line.code.word:
            lines.append(front)
            continue
        place = place_of(line.code.at)
        text = source.line(line.code.at)[:MOST_TEXT] if place != last else ""
        lines.append(f"{front:<31} ; {place}{' ' if text else ''}{text}".rstrip())
        last = place
    for it in made.locals:
        lines.append(f"; local {it.function}.{it.name} {it.operand},{it.size} ; {place_of(it.at)}")
    for one in program.reached():
        last_line = one.end.line if one.end is not None else one.at.line
        lines.append(f"; lines {one.name} ; {place_of(one.at)}-{last_line}")
    lines.append("end")
    return lines


def draft(lines: List[str], name: str) -> List[str]:
    """Returns a draft of a section: a card that has it."""
    return ["format", "power", *lines, f"load {name}"]
