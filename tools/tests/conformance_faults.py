"""Which decks of `conformance/` find which faults of the card of `model_card`. As a script it writes the rows of the table of
docs/CONFORMANCE.md.

It needs the programs, built by tools/build or by `rt ci`.
"""

from __future__ import annotations

import functools
import pathlib
import sys
from argparse import Namespace
from typing import Any, Callable, Dict, FrozenSet, List, Optional, Sequence

TOP = pathlib.Path(__file__).resolve().parent.parent.parent
sys.path[:0] = [str(TOP / "tools" / "mel"), str(TOP / "tools" / "tests")]

import card  # noqa: E402
import conform  # noqa: E402
from labtexts import lines_of  # noqa: E402
from model_card.faults import TOPICS  # noqa: E402
from model_card.reader import Reader  # noqa: E402


def remembered(function: Callable[..., Any]) -> Callable[..., Any]:
    """A function of lists that is computed once for each of its arguments: those of a deck are the same for each card."""
    found: Dict[Any, Any] = {}

    def asked(*given: Sequence[Any]) -> Any:
        key = tuple(map(tuple, given))
        if key not in found:
            found[key] = function(*given)
        return found[key]

    return asked


conform.units_of, conform.writes_of = remembered(conform.units_of), remembered(conform.writes_of)
GIVEN = Namespace(format=None, reset=None, cut=None, virtual=True, aids=[])


class Model(conform.ProgramCard):
    """The card of `model_card` as a card of tools/mel/conform.py."""

    def __init__(self, faults: FrozenSet[str]) -> None:
        self.faults = faults
        self.format()

    def format(self) -> None:
        self.reader = Reader(self.faults)
        self.reset()

    def reset(self) -> None:
        self.reader.frame(b"\0")
        self.reader.frame(b"\2")

    def send(self, command: bytes) -> bytes:
        return self.reader.frame(command) or b""

    def close(self) -> None:
        pass


class Deck:
    """A deck of conformance/ with its transcript."""

    def __init__(self, path: pathlib.Path) -> None:
        self.path, self.topic, self.name = path, path.parent.name, path.stem
        self.lines = lines_of(card.text_of(path))
        transcript = path.with_suffix(".txt").read_text(encoding="utf-8").splitlines()
        self.results = {int(number): result for number, _, result in (line.partition(" ") for line in transcript)}

    def differs(self, faults: FrozenSet[str]) -> Optional[int]:
        """The first line whose answer differs of a card with these faults, or None."""
        run = conform.Run(GIVEN, Model(faults), self.lines)
        return next((number for number, _, seen, wanted in run.answers(self.results) if seen != wanted), None)


@functools.lru_cache(None)
def decks() -> List[Deck]:
    """All decks."""
    return [Deck(path) for path in sorted((TOP / "conformance").rglob("*.deck"))]


def found_by() -> Dict[str, List[Deck]]:
    """The decks of its topic that find each fault."""
    return {fault: [it for it in decks() if it.topic == topic and it.differs(frozenset([fault])) is not None] for fault, topic in TOPICS.items()}


def rows(found: Dict[str, List[Deck]]) -> List[str]:
    """The rows of the table in docs/CONFORMANCE.md."""
    return [f"| {fault} | `{TOPICS[fault]}` | {' '.join(f'`{it.name}`' for it in them)} |" for fault, them in found.items()]


if __name__ == "__main__":
    print("\n".join(rows(found_by())))
