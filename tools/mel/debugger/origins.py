"""Where the lines of a draft come from: of a draft from itself, of an application in C from its files."""

from __future__ import annotations

import contextlib
import io
import os
from dataclasses import dataclass, field, replace
from pathlib import Path
from typing import Any, Dict, Iterable, List, Optional, Tuple

import sources
from desktexts import Name, Section, State

Place = Tuple[str, int]


@dataclass
class Origin:
    """The file that is played. Of one in C `lines` is what its draft says of C, and `after` are the files behind the compiled one, each with the
    number of its first line."""

    path: str = ""
    lines: Any = None
    after: List[Tuple[Path, int]] = field(default_factory=list)

    @property
    def is_c(self) -> bool:
        """Whether it is an application in C."""
        return self.lines is not None

    def place(self, line: Optional[int]) -> Optional[Place]:
        """Returns the file and the line of a line of the draft, or None if it is of none."""
        if line is None:
            return None
        if not self.is_c:
            return self.path, line
        found = [(path, first) for path, first in self.after if first <= line]
        if found:
            return os.path.abspath(found[-1][0]), line - found[-1][1] + 1
        noted: Optional[Place] = self.lines.places.get(line)
        return (os.path.join(os.path.dirname(self.path), noted[0]), noted[1]) if noted is not None else None

    def statement(self, line: int) -> int:
        """Returns the line of the draft that a line of statements is: of C one of the file behind it."""
        return line + self.after[0][1] - 1 if self.is_c and self.after else line

    def files(self, lines: Iterable[int]) -> Dict[str, Dict[int, List[int]]]:
        """Returns the files of some lines of the draft, and for each line of them those of the draft that begin it."""
        found: Dict[str, Dict[int, List[int]]] = {}
        last: Optional[Place] = None
        for line in sorted(lines):
            place = self.place(line)
            if place is not None and (place != last or not self.is_c):
                found.setdefault(os.path.realpath(place[0]), {}).setdefault(place[1], []).append(line)
            last = place
        return found

    def with_locals(self, section: Optional[Section], line: Optional[int], state: Optional[State], depth: int) -> Optional[Section]:
        """Returns a section with the names of the locals that are on the stack at a line of the draft."""
        noted = self.lines.places.get(line) if self.is_c and line is not None else None
        if section is None or noted is None or state is None or not depth:
            return section
        frame, function = state.frames[depth - 1], self.lines.function(noted)
        names = {it.name: Name(it.name, "LB", it.offset, it.size, 0) for it in self.lines.locals
                 if it.function == function and it.place[1] <= noted[1] and (it.offset < 0 or frame.lb + it.offset + it.size <= frame.dt)}
        return replace(section, names={**section.names, **names}) if names else section


def of(source: sources.Source) -> Origin:
    """Returns where the lines of a source come from. A compiler that notes no lines of C leaves those of its draft."""
    if not source.is_c:
        return Origin(str(source.path))
    try:
        from melc.lines import lines_of
    except ImportError:
        return Origin(str(source.path))
    return Origin(os.path.abspath(source.path), lines_of(source.draft.decode("utf-8", "surrogateescape")), source.after)


def read(path: str) -> Tuple[bytes, Origin, str]:
    """Returns the draft of an application in C, where its lines come from, and what the compiler wrote.

    # Errors

    NotRead, if it is refused; its second argument is what the compiler wrote.
    """
    said = io.StringIO()
    try:
        with contextlib.redirect_stderr(said):
            found = sources.compiled(Path(path))
    except sources.NotRead as why:
        raise sources.NotRead(str(why), said.getvalue()) from None
    return found.draft, of(found), said.getvalue()
