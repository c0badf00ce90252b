"""What is refused or warned of, each with its place in the source. Every pass writes into one list of these."""

from __future__ import annotations

from dataclasses import dataclass
from typing import Any, List, Tuple


@dataclass(frozen=True)
class At:
    """A place in the source: the file as `cpp` names it, the line and the column, each from 1."""

    file: str
    line: int
    column: int = 1


def at_of(node: Any, other: At = At("", 0)) -> At:
    """Returns the place of a node of pycparser, or `other` if it has none."""
    coord = getattr(node, "coord", None)
    return At(str(coord.file), int(coord.line), int(coord.column or 1)) if coord is not None else other


class Refused(Exception):
    """One thing that is refused, with its place."""

    def __init__(self, at: At, text: str) -> None:
        super().__init__(text)
        self.at, self.text = at, text


class Faults:
    """All that is refused and warned of."""

    def __init__(self) -> None:
        self.is_refused = False
        self._found: List[Tuple[At, str]] = []

    def error(self, at: At, text: str) -> None:
        """Notes what is refused."""
        self.is_refused = True
        self._note(at, "error", text)

    def warning(self, at: At, text: str) -> None:
        """Notes what is warned of."""
        self._note(at, "warning", text)

    def _note(self, at: At, kind: str, text: str) -> None:
        if (at, f"{kind}: {text}") not in self._found:
            self._found.append((at, f"{kind}: {text}"))

    def lines(self) -> List[str]:
        """Returns the messages in the order of their lines, the file first of which one was found first."""
        files = list(dict.fromkeys(at.file for at, _ in self._found))
        found = sorted(self._found, key=lambda it: (files.index(it[0].file), it[0].line, it[0].column))
        return [f"{at.file}:{at.line}:{at.column}: {text}" for at, text in found]
