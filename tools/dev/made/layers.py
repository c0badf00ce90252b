"""Draws docs/layers.svg, the layers of the crates, from crates.txt.

    tools/dev/make [--check] layers

Each comment of crates.txt begins a group, and each group has a frame, above those that it needs. In a frame a crate's layer is the longest
way down from it inside the group, and a line leads down to each crate of the group that it needs. A line from frame to frame leads to each
group that one needs. Both leave out what is needed by way of another one anyway. A group that needs a crate of one further down in
crates.txt has a dashed line to it. With --check nothing is written, and the script ends with 1 if the picture is not up to date, or if crates.txt
lists a crate of definitions or laws that another listed crate has below it: it is cited through that one. An attribute of a tactic can cite
listed crates alone, and so can code, so what they name stays. It ends with 1, too, if a crate of definitions lists a law or code, or a crate of
laws lists code.

It needs Python 3.9.
"""

import argparse
import re
import sys
from pathlib import Path
from xml.sax.saxutils import escape

TOP = Path(__file__).resolve().parent.parent.parent.parent
FILE = TOP / "docs/layers.svg"

WIDTH = 1000
MARGIN = 16
CHARACTER = 7.3  # the width of a letter of a name
PADDING = 6
BOX = 22  # the height of a crate
ACROSS = 14  # between two crates of a layer
LAYER = 46  # from one layer of a frame to the next
HEAD = 24  # the height of a frame's head
FRAMES = 24  # between two frames of a row
ROW = 34  # between two rows of frames
COLOURS = ("#4c78a8", "#b3591a", "#3f7d3a", "#b3393c", "#6f4e9c", "#7d5b4f", "#b0478a", "#5f6b75", "#7a7a12", "#1b8593", "#444444")


def groups():
    """The groups of crates.txt: their heads, and of each crate those of the repository that it needs."""
    found = {}
    for line in (TOP / "crates.txt").read_text(encoding="utf-8").splitlines():
        if line.startswith("#"):
            crates = found.setdefault(line[1:].strip().rstrip("."), {})
        elif line.strip():
            name, _, needed = line.partition(":")
            crates[name] = needed.split()
    names = {name for crates in found.values() for name in crates}
    return {head: {name: [it for it in needed if it in names] for name, needed in crates.items()} for head, crates in found.items()}


def below(needs):
    """All that is below each one."""
    found = {}

    def of(name):
        if name not in found:
            found[name] = {it for needed in needs[name] for it in {needed} | of(needed)}
        return found[name]

    return {name: of(name) for name in needs}


def direct(needs):
    """What each one needs and does not need by way of another one."""
    under = below(needs)
    return {name: [it for it in needed if not any(it in under[other] for other in needed)] for name, needed in needs.items()}


def named_in_code(crate):
    """The crates whose definitions or lemmas an attribute of a tactic names in a crate, and those whose types and functions it uses."""
    code = "\n".join(it.read_text(encoding="utf-8") for it in sorted((TOP / "crates" / crate / "src").rglob("*.rt")))
    cited = {name for attribute in re.findall(r"#!?\[tactic\((.*)\)\]", code) for name in re.findall(r"(\w+)::(?:specs|proofs)::", attribute)}
    return cited | set(re.findall(r"^\s*(?:pub )?use (\w+)(?:::|;)", code, re.M))


def superfluous(crates):
    """What crates.txt lists and need not: a crate, and those of definitions and laws that another one of its line has below it."""
    needs = {name: needed for members in crates.values() for name, needed in members.items()}
    least = direct(needs)
    for name, needed in needs.items():
        passed = [it for it in needed if it not in least[name] and it.startswith(("model_", "law_"))]
        found = set(passed) - named_in_code(name) if passed else set()
        if found:
            yield name, sorted(found)


def upside_down(crates):
    """What crates.txt lists and must not: of a crate of definitions a law or code, and of a crate of laws code."""
    for members in crates.values():
        for name, needed in members.items():
            group = name.partition("_")[0]
            allowed = {"model": ("model_",), "law": ("model_", "law_")}.get(group)
            found = [it for it in needed if not it.startswith(allowed)] if allowed else []
            if found:
                yield name, found


def levels(needs):
    """The layer of each one, from 0 at the bottom."""
    found = {}

    def of(name):
        if name not in found:
            found[name] = 1 + max((of(it) for it in needs[name]), default=-1)
        return found[name]

    return {name: of(name) for name in needs}


def rows_of(level):
    """What is in each layer, the lowest first."""
    return [[name for name in level if level[name] == it] for it in range(max(level.values()) + 1)]


def between(crates):
    """Which groups each group needs: those above it in crates.txt, and those further down."""
    heads = list(crates)
    home = {name: head for head, members in crates.items() for name in members}
    needed = {head: {home[it] for names in members.values() for it in names} - {head} for head, members in crates.items()}
    earlier = {head: [it for it in heads[: heads.index(head)] if it in needed[head]] for head in heads}
    later = {head: [it for it in heads[heads.index(head) :] if it in needed[head]] for head in heads}
    return earlier, later


def width_of(name):
    """The width of a crate's box."""
    return len(name) * CHARACTER + 2 * PADDING


class Frame:
    """A group: where its crates are, from the upper left corner of its frame."""

    def __init__(self, head, members):
        self.head = head
        inside = {name: [it for it in needed if it in members] for name, needed in members.items()}
        self.lines = [(name, it) for name, needed in direct(inside).items() for it in needed]
        rows = rows_of(levels(inside))
        widths = [sum(map(width_of, row)) + ACROSS * (len(row) - 1) for row in rows]
        self.width = max(*widths, 6.1 * len(head) - MARGIN) + 2 * MARGIN
        self.height = HEAD + BOX + LAYER * (len(rows) - 1) + MARGIN
        self.at = {}
        for level, (row, width) in enumerate(zip(rows, widths)):
            x = (self.width - width) / 2
            for name in row:
                self.at[name] = (x + width_of(name) / 2, self.height - MARGIN - BOX / 2 - LAYER * level)
                x += width_of(name) + ACROSS

    def place(self, x, y):
        """Puts the frame's upper left corner somewhere."""
        self.x, self.y = x, y
        self.at = {name: (round(x + across, 1), round(y + down, 1)) for name, (across, down) in self.at.items()}

    def drawn(self, colour):
        """The frame, its lines and its crates."""
        yield f'<rect x="{self.x:.1f}" y="{self.y:.1f}" width="{self.width:.1f}" height="{self.height:.1f}" rx="6" fill="#fafafa" stroke="{colour}" stroke-width="1.6"/>'
        yield f'<text x="{self.x + 8:.1f}" y="{self.y + 15:.1f}" font-size="11" fill="{colour}">{escape(self.head)}</text>'
        for upper, lower in self.lines:
            (x1, y1), (x2, y2) = self.at[upper], self.at[lower]
            yield path(x1, y1 + BOX / 2, x2, y2 - BOX / 2, colour, 1.1)
        for name, (x, y) in self.at.items():
            width = width_of(name)
            yield f'<rect x="{x - width / 2:.1f}" y="{y - BOX / 2:.1f}" width="{width:.1f}" height="{BOX}" rx="4" fill="#fff" stroke="{colour}"/>'
            yield f'<text x="{x}" y="{y + 4:.1f}" text-anchor="middle" font-family="monospace" font-size="12" fill="#111">{escape(name)}</text>'


def path(x1, y1, x2, y2, colour, width, dashes=""):
    """A line down from one point to another."""
    middle = (y1 + y2) / 2
    way = f"M{x1:.1f} {y1:.1f}C{x1:.1f} {middle:.1f} {x2:.1f} {middle:.1f} {x2:.1f} {y2:.1f}"
    return f'<path d="{way}" fill="none" stroke="{colour}" stroke-width="{width}"{dashes}/>'


def wrapped(row, frames):
    """The groups of a row in rows that the picture has room for."""
    found = [[]]
    for head in row:
        if found[-1] and sum(frames[it].width + FRAMES for it in found[-1]) + frames[head].width > WIDTH - 2 * MARGIN:
            found.append([])
        found[-1].append(head)
    return found


def placed(crates, rows):
    """The frames of all groups in their places, and the height of the picture."""
    frames = {head: Frame(head, members) for head, members in crates.items()}
    y = MARGIN
    for row in reversed([it for row in rows for it in wrapped(row, frames)]):
        height = max(frames[head].height for head in row)
        x = (WIDTH - sum(frames[head].width for head in row) - FRAMES * (len(row) - 1)) / 2
        for head in row:
            frames[head].place(x, y + height - frames[head].height)
            x += frames[head].width + FRAMES
        y += height + ROW
    return frames, y - ROW + MARGIN


def ends(frame, number, of):
    """Where the line of that number, of some, ends at a frame's side."""
    return frame.x + frame.width * (number + 1) / (of + 1)


def picture(crates):
    """The whole picture."""
    earlier, later = between(crates)
    rows = rows_of(levels(earlier))
    frames, height = placed(crates, rows)
    colours = {head: COLOURS[place % len(COLOURS)] for place, head in enumerate(crates)}
    yield f'<svg xmlns="http://www.w3.org/2000/svg" width="{WIDTH}" height="{height:.0f}" viewBox="0 0 {WIDTH} {height:.0f}" font-family="sans-serif">'
    yield f'<rect width="{WIDTH}" height="{height:.0f}" fill="white"/>'
    needed = direct(earlier)
    users = {head: [it for it in crates if head in needed[it]] for head in crates}
    for upper in crates:
        for number, lower in enumerate(needed[upper]):
            x1, x2 = ends(frames[upper], number, len(needed[upper])), ends(frames[lower], users[lower].index(upper), len(users[lower]))
            yield path(x1, frames[upper].y + frames[upper].height, x2, frames[lower].y, colours[lower], 2)
    for lower in crates:
        for upper in later[lower]:
            x1, x2 = frames[upper].x + 14, frames[lower].x + 14
            yield path(x1, frames[upper].y + frames[upper].height, x2, frames[lower].y, colours[lower], 1.4, ' stroke-dasharray="5 4"')
    for head, frame in frames.items():
        yield from frame.drawn(colours[head])
    yield "</svg>"


def main(given_words):
    words = argparse.ArgumentParser(description="Draws the layers of the crates.")
    words.add_argument("--check", action="store_true", help="only say whether the picture is up to date")
    given = words.parse_args(given_words)
    text = "".join(f"{line}\n" for line in picture(groups()))
    if not given.check:
        FILE.write_text(text, encoding="utf-8")
    elif not FILE.is_file() or FILE.read_text(encoding="utf-8") != text:
        print("docs/layers.svg is not up to date: run tools/dev/make layers", file=sys.stderr)
        return 1
    listed = list(superfluous(groups())) if given.check else []
    for name, found in listed:
        print(f"crates.txt: {name} is to cite {', '.join(found)} through another crate of its line", file=sys.stderr)
    turned = list(upside_down(groups())) if given.check else []
    for name, found in turned:
        print(f"crates.txt: {name} must not list {', '.join(found)}: definitions list definitions, laws list definitions and laws", file=sys.stderr)
    return 1 if listed or turned else 0
