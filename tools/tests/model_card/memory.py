"""What the memory of a card keeps: applications in a heap of words, and the writes of a command, at each of which power may go."""

from __future__ import annotations

from dataclasses import dataclass, field
from typing import Callable, Dict, FrozenSet, List, Optional, Tuple

OPENING = b"OPEN-2--"
FIRST, SIZE = 131, 8192  # the first word of the heap, and the words of the device


class Stopped(Exception):
    """The card stopped at a device write: power was cut, or the device refused the write."""


@dataclass
class Application:
    """What a load brought onto the card."""

    aid: bytes
    code: bytes
    static: bytearray
    session: int
    access: int
    fci: bytes
    words: int = 0


@dataclass
class Block:
    """Words of the heap that follow each other: an application's, or a hole."""

    words: int
    aid: Optional[bytes] = None


def words_of(size: int) -> int:
    """Returns the number of words that bytes take."""
    return (size + 7) // 8


@dataclass
class Memory:
    """The applications, the blocks of the heap, and the stop that is armed for the next line."""

    faults: FrozenSet[str] = frozenset()
    applications: Dict[bytes, Application] = field(default_factory=dict)
    blocks: List[Block] = field(default_factory=lambda: [Block(SIZE - FIRST)])
    # The bytes that deletions left in each word of the heap.
    left: Dict[int, bytes] = field(default_factory=dict)
    fuse: Optional[Tuple[str, int, bytes]] = None
    made: int = 0
    owed: int = 0
    # What takes the last stopped write back, for cards that do.
    taken_back: Optional[Callable[[], None]] = None
    failed: bool = False

    def arm(self, kind: str, write: int, fill: bytes) -> None:
        """Arms a stop for the next line, in place of an armed one."""
        self.fuse = kind, write, fill

    def begin(self) -> None:
        """Begins a line."""
        self.made = 0

    def hit(self, count: int) -> Optional[Tuple[int, bytes]]:
        """Returns where in the next `count` writes the stop hits, and what it leaves there; they are made if it does not."""
        if self.fuse is not None and self.made < self.fuse[1] <= self.made + count:
            return self.fuse[1] - self.made, self.fuse[2]
        self.made += count
        return None

    def plain(self, count: int) -> None:
        """Makes `count` writes into a hole."""
        if self.hit(count) is not None:
            raise Stopped

    def atomic(self, words: int, change: Callable[[], None], back: Callable[[], None], half: Callable[[], None]) -> None:
        """Makes an atomic write of some words: `change` is its effect, `back` takes that back, `half` is the effect of its first words."""
        gate, cost = words_of(2 * words) + words + 2, words_of(2 * words) + 2 * words + 3
        found = self.hit(cost)
        if found is None:
            change()
            return
        at, fill = found
        is_whole = at > gate or at == gate and fill == OPENING
        if "torn gate is shut" in self.faults:
            is_whole = at > gate
        if "torn gate is open" in self.faults:
            is_whole = at >= gate
        if "whole at any write" in self.faults:
            is_whole = True
        if "whole at the last write" in self.faults:
            is_whole = at == cost
        if is_whole:
            change()
            self.owed, self.taken_back = 0 if at == cost and fill != OPENING else words + 1, back
            self.failed = self.fuse is not None and self.fuse[0] == "fail"
        elif "commit in two halves" in self.faults and words > 1 and at > 2:
            half()
        raise Stopped

    def recover(self) -> None:
        """Makes what a stop left to be made."""
        owed, back = self.owed, self.taken_back
        self.owed, self.taken_back = 0, None
        is_lost = "nothing is recovered" in self.faults or self.failed and "what a failed write left whole is lost" in self.faults
        if owed and is_lost and back:
            back()
        found = self.hit(owed)
        if found is None:
            return
        at, fill = found
        self.owed = owed if at < owed or fill == OPENING else 0
        self.taken_back = back
        if "a recovery is made once" in self.faults and back and self.owed:
            back()
            self.owed = 0
        raise Stopped

    def headers(self) -> Dict[int, Tuple[int, ...]]:
        """Returns the header words of the heap by their places, the root among them."""
        place, holes, found = FIRST, [], {}
        for it in self.blocks:
            found[place] = (it.words, it.aid is not None, 0)
            holes += [place] if it.aid is None else []
            place += it.words
        for at, after in zip([0, *holes], [*holes, 0]):
            found[at] = (*found.get(at, (0,))[:2], after)
        return found

    def room(self, words: int) -> Optional[int]:
        """Returns the number of the first hole that has so many words."""
        return next((at for at, it in enumerate(self.blocks) if it.aid is None and it.words >= words), None)

    def place_of(self, number: int) -> int:
        """Returns the first word of a block."""
        return FIRST + sum(it.words for it in self.blocks[:number])

    def relaid(self, blocks: List[Block], change: Callable[[], None], back: Callable[[], None]) -> None:
        """Lays the heap out anew, in one atomic write of the header words that differ."""
        before, old = self.headers(), self.blocks
        self.blocks = blocks
        count = sum(1 for at, it in self.headers().items() if before.get(at) != it)
        self.blocks = old

        def done() -> None:
            self.blocks = blocks
            change()

        def undone() -> None:
            self.blocks = old
            back()

        self.atomic(count, done, undone, lambda: None)

    def create(self, made: Application, given: int) -> None:
        """Makes an application of a load whose bytes are in the first hole that has room; `given` static bytes were sent."""
        number = self.room(made.words)
        assert number is not None
        start = self.place_of(number) + 5 + words_of(len(made.code))
        kept = b"".join(self.left.get(start + it, bytes(8)) for it in range(words_of(len(made.static))))
        if "static bytes past the data are kept" in self.faults:
            made.static[given:] = kept[given:len(made.static)]
        elif given < len(made.static):
            self.plain(words_of(len(made.static)) - given // 8)
        self.plain(4)
        hole = self.blocks[number].words - made.words
        blocks = [*self.blocks[:number], Block(made.words, made.aid), *([Block(hole)] if hole else []), *self.blocks[number + 1:]]
        self.relaid(blocks, lambda: self.applications.update({made.aid: made}), lambda: self.applications.pop(made.aid) and None)

    def delete(self, aid: bytes) -> None:
        """Makes a hole of an application's block, and one of all holes beside it."""
        number = next(at for at, it in enumerate(self.blocks) if it.aid == aid)
        gone = self.applications[aid]
        start = self.place_of(number) + 5 + words_of(len(gone.code))
        for at in range(words_of(len(gone.static))):
            self.left[start + at] = bytes(gone.static[8 * at:8 * at + 8]).ljust(8, b"\0")
        before, after = self.blocks[:number], self.blocks[number + 1:]
        words = gone.words
        is_merged = "holes stay apart" not in self.faults
        if is_merged and before and before[-1].aid is None:
            words += before.pop().words
        if is_merged and after and after[0].aid is None:
            words += after.pop(0).words
        self.relaid([*before, Block(words), *after], lambda: self.applications.pop(aid) and None, lambda: self.applications.update({aid: gone}))
