"""Layout and jumps: takes blocks, and returns them in the order of their code, with BRANCH where it reaches and JUMP where it does not.

A jump to an exit is that exit. Exits that conditions lead to at one height are shared.
"""

from __future__ import annotations

from dataclasses import dataclass
from typing import Dict, List, Tuple

from .code import OPPOSITE, Block, Branch, Goto, Ins, Stop
from .faults import At

REACH = 127


@dataclass
class Line:
    """A line of code: its labels, and its instruction."""

    label: str
    code: Ins


@dataclass
class Leap:
    """A jump at the end of a block, whose form is chosen when its distance is known."""

    condition: str
    target: Block
    at: At
    is_far: bool = False

    @property
    def size(self) -> int:
        """Its bytes."""
        return 3 if self.is_far else 2


def laid_out(blocks: List[Block]) -> List[Line]:
    """Returns the code of blocks, the first of which is its beginning."""
    roots = [blocks[0], *(it for it in blocks if it.name)]
    _threaded(blocks)
    shared = _share(blocks)
    found = _reached(roots, blocks)
    chains = _chains(found, roots, shared)
    order = _placed(chains, [it for it in shared if it in found])
    return _written(order)


# ---- ends


def _through(block: Block) -> Block:
    """Returns where a block without code leads to."""
    seen = set()
    while not block.code and isinstance(block.end, Goto) and id(block) not in seen:
        seen.add(id(block))
        block = block.end.target
    return block


def _is_exit(block: Block) -> bool:
    return not block.code and isinstance(block.end, Stop)


def _ended(target: Block, at: At) -> "Goto | Stop":
    """Returns what a jump to a block is: an exit, if the block is one."""
    if not _is_exit(target):
        return Goto(target, at)
    assert isinstance(target.end, Stop)
    code = target.end.code
    return Stop(Ins(code.word, code.operands, code.size, at if target.end.is_implied else code.at), target=target)


def _threaded(blocks: List[Block]) -> None:
    """Lets jumps go where they lead to in the end."""
    for it in blocks:
        if isinstance(it.end, Goto):
            it.end = _ended(_through(it.end.target), it.end.at)
    for it in blocks:
        if isinstance(it.end, Branch):
            it.end = Branch(it.end.condition, _through(it.end.yes), _through(it.end.no), it.end.at)
            if it.end.yes is it.end.no:
                it.end = _ended(it.end.yes, it.end.at)


def _successors(block: Block) -> List[Block]:
    if isinstance(block.end, Goto):
        return [block.end.target]
    return [block.end.no, block.end.yes] if isinstance(block.end, Branch) else []


def _share(blocks: List[Block]) -> List[Block]:
    """Lets conditions lead to one exit of all that are the same at one height; returns those exits that several lead to."""
    firsts: Dict[Tuple[str, int, str], Block] = {}
    counts: Dict[int, int] = {}
    waiting, seen = [blocks[0], *(it for it in blocks if it.name)], set()
    live = []
    while waiting:
        it = waiting.pop()
        if id(it) not in seen:
            seen.add(id(it))
            live.append(it)
            waiting += _successors(it)
    order = {id(it): place for place, it in enumerate(blocks)}
    for it in sorted(live, key=lambda one: order[id(one)]):
        if not isinstance(it.end, Branch):
            continue
        ends = []
        for target in (it.end.yes, it.end.no):
            if _is_exit(target):
                assert isinstance(target.end, Stop)
                key = (target.end.code.text, target.height, target.routine)
                target = firsts.setdefault(key, target)
                counts[id(target)] = counts.get(id(target), 0) + 1
            ends.append(target)
        it.end = Branch(it.end.condition, ends[0], ends[1], it.end.at)
    return [it for it in firsts.values() if counts[id(it)] > 1]


def _reached(roots: List[Block], blocks: List[Block]) -> List[Block]:
    """Returns the blocks that are reached, in the order in which they were made."""
    seen, waiting = set(), list(roots)
    while waiting:
        it = waiting.pop()
        if id(it) not in seen:
            seen.add(id(it))
            waiting += _successors(it)
    return [it for it in blocks if id(it) in seen]


# ---- order


def _chains(found: List[Block], roots: List[Block], shared: List[Block]) -> List[List[Block]]:
    """Returns rows of blocks of which each but the last goes on in the next."""
    chains = {id(it): [it] for it in found}
    apart = {id(it) for it in (*roots, *shared)}
    heads = {id(it): it for it in found}

    def join(first: Block, second: Block) -> None:
        row = chains[id(first)]
        row += chains[id(second)]
        for it in chains[id(second)]:
            chains[id(it)] = row
        heads.pop(id(second), None)

    for it, following in zip(found, found[1:]):
        if following in _successors(it) and id(following) not in apart:
            join(it, following)
    root = {id(it) for it in roots}
    for it in found:
        row = chains[id(it)]
        if row[-1] is not it:
            continue
        for target in _successors(it):
            if id(target) in heads and id(target) not in root and chains[id(target)] is not row:
                join(it, target)
                break
    return [chains[key] for key in heads]


def _sizes(order: List[Block]) -> Dict[int, int]:
    """Returns about where each block begins."""
    places, place = {}, 0
    for it in order:
        places[id(it)] = place
        place += sum(code.size for code in it.code) + 3
    return places


def _placed(chains: List[List[Block]], shared: List[Block]) -> List[Block]:
    """Returns all blocks in order, with each shared exit that nothing goes on in where most conditions reach it."""
    alone = [row for row in chains if row[0] in shared and len(row) == 1 and row is not chains[0]]
    rows = [row for row in chains if not any(row is it for it in alone)]
    for row in alone:
        order = [it for each in rows for it in each]
        places = _sizes(order)
        users = [places[id(it)] for it in order if isinstance(it.end, Branch) and row[0] in (it.end.yes, it.end.no)]
        ends, place = [], 0
        for at, each in enumerate(rows, 1):
            place = places[id(each[-1])] + sum(code.size for code in each[-1].code) + 3
            ends.append((sum(abs(user - place) > REACH - 12 for user in users), sum(abs(user - place) for user in users), at))
        rows.insert(min(ends)[2], row)
    return [it for row in rows for it in row]


# ---- text


def _written(order: List[Block]) -> List[Line]:
    leaps: Dict[int, List[Leap]] = {}
    ends: Dict[int, List[Ins]] = {}
    for it, following in zip(order, [*order[1:], None]):
        leaps[id(it)] = _leaps(it, following)
        # An exit that follows anyway is not written twice.
        ends[id(it)] = [it.end.code] if isinstance(it.end, Stop) and (it.end.target is None or it.end.target is not following) else []
    while True:
        places, place = {}, 0
        for it in order:
            places[id(it)] = place
            place += sum(code.size for code in it.code) + sum(leap.size for leap in leaps[id(it)])
            place += sum(code.size for code in ends[id(it)])
        grown = False
        for it in order:
            place = places[id(it)] + sum(code.size for code in it.code)
            for leap in leaps[id(it)]:
                place += leap.size
                if not leap.is_far and not -REACH - 1 <= places[id(leap.target)] - place <= REACH:
                    leap.is_far = grown = True
        if not grown:
            break
    targets = {id(leap.target) for found in leaps.values() for leap in found}
    names: Dict[int, str] = {}
    taken = {it.name for it in order}
    number = 0
    for it in order:
        if it.name:
            names[id(it)] = it.name
        elif id(it) in targets:
            number += 1
            while f"L{number}" in taken:
                number += 1
            names[id(it)] = f"L{number}"
    lines: List[Line] = []
    for it in order:
        code = list(it.code)
        for leap in leaps[id(it)]:
            code.append(Ins("JUMP" if leap.is_far else "BRANCH", f"{leap.condition},{names[id(leap.target)]}", leap.size, leap.at))
        code += ends[id(it)]
        if not code and it.name:
            code = [Ins("", "", 0, At("", 0))]
        for place, one in enumerate(code):
            lines.append(Line(names.get(id(it), "") if place == 0 else "", one))
    return lines


def _leaps(block: Block, following: "Block | None") -> List[Leap]:
    """Returns the jumps at the end of a block that another one follows."""
    end = block.end
    if isinstance(end, Goto):
        # A block that does nothing and goes to itself has to do it.
        return [] if end.target is following and end.target is not block else [Leap("ALL", end.target, end.at)]
    if not isinstance(end, Branch):
        return []
    if end.yes is following:
        return [Leap(OPPOSITE[end.condition], end.no, end.at)]
    found = [Leap(end.condition, end.yes, end.at)]
    return found if end.no is following else [*found, Leap("ALL", end.no, end.at)]
