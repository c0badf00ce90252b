"""`mel rules`: the rule lines of a named idiom, with the names of a draft in place.

    mel rules pin DRAFT SECRET [--tries NAME] [--count N]   at most N wrong comparisons of SECRET between two right ones
    mel rules after DRAFT DEED SECRET                        DEED only after a right comparison of SECRET in the same session
    mel rules grows DRAFT NAME [--by NAME] [--may-wrap]      the number NAME never falls: it is what was added to it
    mel rules whole DRAFT NAME ..                            the names change in one transaction, all or none

SECRET and NAME are names of static bytes. DEED is a name of static bytes, whose changes are meant, or a label or the number of a line,
whose instruction is meant. Put the lines at the end of the draft; `mel prove` says whether they hold, and --try does so at once.

The status is 0, 1 if --try finds that the rules are not proved, and 2 if the draft has nothing that the idiom is about.
"""

from __future__ import annotations

import argparse
import re
import sys
from dataclasses import dataclass
from pathlib import Path
from typing import Dict, Iterator, List, Optional, Tuple

import desktexts
import labtexts
import sources
import terminal
from card import program_path
from desktexts import Name, Section
from sources import NotRead, Source

# Instructions that write to their operand: with a length, or of one or two bytes.
BLOCKS = ("STORE", "CLEARN", "INCN", "DECN", "NOTN", "ADDN", "SUBN", "ANDN", "ORN", "XORN")
IMMEDIATES = {"SETB": 1, "ADDB": 1, "SUBB": 1, "SETW": 2, "ADDW": 2, "SUBW": 2}
# An instruction as `melcard list` and traces write it, with an operand of bytes.
INSTRUCTION = re.compile(r"([A-Z]+) (SB|DB|PB)\[(\d+)\](?:,(\w+))?$")
# The top of the stack DT follows an instruction in a trace, and begins with 8; after it come C and Z.
DT = " 8*"


@dataclass
class Instruction:
    """An instruction of a section: its line, its text as traces have it, its word, and of an operand of bytes the register, offset and size."""

    line: int
    text: str
    word: str
    register: str = ""
    offset: int = 0
    size: int = 0
    constant: str = ""

    def is_of(self, name: Name) -> bool:
        """Returns whether the operand is just the bytes of a name."""
        return (self.register, self.offset, self.size) == (name.register, name.offset, name.size)


def instruction_of(line: int, text: str) -> Instruction:
    """Returns an instruction by its text."""
    found = INSTRUCTION.match(text)
    word = text.partition(" ")[0]
    if found is None:
        return Instruction(line, text, word)
    is_block = word in BLOCKS or word in ("CMPN", "LOAD", "TESTN")
    size = int(found[4]) if is_block and found[4] else IMMEDIATES.get(word, {"CMPB": 1, "CMPW": 2}.get(word, 1))
    return Instruction(line, text, word, found[2], int(found[3]), size, "" if is_block else found[4] or "")


class Draft:
    """A draft of which rules are made: its text, the section that they are about, and that section's instructions."""

    def __init__(self, source: Source, wanted: Optional[str], names: List[str]) -> None:
        self.source = source
        self.text = source.draft.decode("utf-8", "replace")
        self.lines = labtexts.lines_of(self.text)
        self.section = self.section_of(wanted, names)
        self.code = self.instructions()
        self.rules = [it.text.split() for it in labtexts.remarks_of(self.lines) if it.mark == "#@"]

    def section_of(self, wanted: Optional[str], names: List[str]) -> Section:
        """Returns the section that is meant: the wanted one, or the one that has the names."""
        try:
            found = desktexts.sections_of(self.source.draft)
        except desktexts.Refused as why:
            raise NotRead(f"{self.source.path} is refused: {why}") from None
        fitting = [it for it in found if it.name == wanted or wanted is None and all(name in it.names for name in names)]
        if not fitting and wanted is None and names:
            known = ", ".join(name for it in found for name, one in it.names.items() if one.register == "SB")
            raise NotRead(f"no section of {self.source.path} has the static bytes {' and '.join(names)}; there are {known or 'none'}")
        if len(fitting) != 1:
            every = ", ".join(it.name for it in found) or "none"
            raise NotRead(f"--section names one section of {self.source.path}; there are {every}")
        return fitting[0]

    def instructions(self) -> List[Instruction]:
        """Returns the instructions of the section, as `melcard list` writes them."""
        code = self.section.code
        listed = terminal.run([program_path("melcard"), "list"], "".join(it.content.hex() for it in code).encode()).text.splitlines()
        if len(listed) != len(code):
            raise NotRead(f"{self.section.name} has data among its code, and its instructions cannot be listed")
        return [instruction_of(it.line, text) for it, text in zip(code, listed)]

    def static(self, name: str) -> Name:
        """Returns a name of static bytes."""
        found = self.section.names.get(name)
        if found is None or found.register != "SB":
            known = ", ".join(it.name for it in self.section.names.values() if it.register == "SB") or "none"
            raise NotRead(f"{name} names no static bytes of {self.section.name}; there are {known}")
        return found

    def writers(self, name: Name) -> List[Instruction]:
        """Returns the instructions that write to the bytes of a name."""
        return [it for it in self.code if (it.word in BLOCKS or it.word in IMMEDIATES) and it.register == name.register
                and it.offset < name.offset + name.size and name.offset < it.offset + it.size]

    def computed(self) -> List[int]:
        """Returns the lines whose instructions write to an address that only a play shows."""
        return [it.line for it in self.code if it.text.startswith(("STOREI", "PRIM 2,", "PRIM 6"))]

    def comparisons(self, secret: Name) -> List[Instruction]:
        """Returns the instructions that compare the bytes of a name, as CMPN does.

        # Errors

        NotRead, if there is none.
        """
        found = [it for it in self.code if it.word == "CMPN" and it.is_of(secret)]
        if not found:
            raise NotRead(f"no CMPN of {self.section.name} compares {secret.name}, so no rule can speak of it")
        return found

    def operand(self, it: Instruction) -> Tuple[str, str]:
        """Returns the operand of an instruction with a name in its place, if the draft has one, and its length."""
        for name in self.section.names.values():
            if name.line and name.register == it.register and name.offset <= it.offset and it.offset + it.size <= name.offset + name.size:
                within = it.offset - name.offset
                is_whole = not within and it.size == name.size
                return f"{{{name.name}{f'+{within}' if within else ''}}}", f"{{{name.name}.size}}" if is_whole else str(it.size)
        return f"{it.register}[{it.offset}]", str(it.size)

    def initial(self, name: Name) -> int:
        """Returns the number that static bytes have when the application is created."""
        fields = self.lines[name.line - 1].partition(";")[0].split()
        return int(fields[3], 16) if len(fields) == 4 else 0

    def free(self, name: str) -> str:
        """Returns a name for an allowance or a sum that the draft's rules have not got."""
        taken = {it[1] for it in self.rules if it[:1] in (["allow"], ["sum"]) and len(it) > 1}
        return next(it for it in [name, *(f"{name}{count}" for count in range(2, 100))] if it not in taken)

    def app(self) -> Iterator[str]:
        """Returns the line that says of which application the rules below it are, unless the draft ends with its rules."""
        apps = [it[1] for it in self.rules if it[:1] == ["app"] and len(it) > 1]
        if apps[-1:] != [self.section.name]:
            yield f"#@ app {self.section.name}"


def pattern(it: Instruction, draft: Draft, rest: str = "") -> str:
    """Returns the pattern of an instruction, with the names of the draft: `*INCN {count},{count.size} 8*`. `rest` are C and Z after it."""
    if not it.register:
        return f"*{it.text}{DT}{rest}"
    operand, size = draft.operand(it)
    return f"*{it.word} {operand},{it.constant or size}{DT}{rest}"


def compared(secret: Name, flags: str) -> str:
    """Returns the pattern of a comparison of a name, with the flags C and Z after it."""
    return f"*CMPN {{{secret.name}}},{{{secret.name}.size}} 8*{flags}"


# ---- the idioms


def pin(draft: Draft, given: argparse.Namespace) -> Iterator[str]:
    """Three tries: at most N wrong comparisons of a secret between two right ones."""
    secret, tries = draft.static(given.secret), draft.static(given.tries) if given.tries else None
    draft.comparisons(secret)
    count = given.count if given.count is not None else draft.initial(tries) if tries is not None else 3
    guesses = draft.free("guesses")
    yield f"# At most {count} wrong comparisons of {secret.name} between two right ones."
    yield from draft.app()
    yield f"#@ allow {guesses} {count}"
    yield f"#@ on turn {compared(secret, '0')} spend {guesses} 1"
    yield f"#@ on turn {compared(secret, '1')} allow {guesses} {count}"
    if tries is not None:
        yield f"#@ always {{{tries.name}}} 0 {count}"


def after(draft: Draft, given: argparse.Namespace) -> Iterator[str]:
    """Only after: a deed needs a right comparison of a secret in its session."""
    secret = draft.static(given.secret)
    draft.comparisons(secret)
    shown = draft.free("shown")
    yield f"# {given.deed} only after a right comparison of {secret.name} in the same session."
    yield from draft.app()
    yield f"#@ allow {shown} 0"
    yield f"#@ on session allow {shown} 0"
    yield f"#@ on turn {compared(secret, '1')} allow {shown} 1"
    for it in dict.fromkeys(pattern(it, draft) for it in deeds(draft, given.deed)):
        yield f"#@ on turn {it} need {shown} 1"


def deeds(draft: Draft, deed: str) -> List[Instruction]:
    """Returns the instructions of a deed: those that write to a name, or the one of a label or a line."""
    if deed in draft.section.names:
        found = draft.writers(draft.static(deed))
        if not found:
            raise NotRead(f"no instruction of {draft.section.name} writes to {deed}")
        return found
    if deed in draft.section.labels:
        code = draft.section.at(draft.section.labels[deed])
        number = code.line if code is not None else 0
    elif deed.isdigit():
        number = int(deed)
    else:
        raise NotRead(f"{deed} is no name of static bytes, no label and no number of a line of {draft.section.name}")
    found = [it for it in draft.code if it.line == number]
    if not found:
        raise NotRead(f"line {deed} has no instruction of {draft.section.name}")
    alike = [str(it.line) for it in draft.code if it.text == found[0].text and it.line != number]
    if alike:
        others = f"line {alike[0]} has" if len(alike) == 1 else f"lines {', '.join(alike)} have"
        print(f"mel rules: {others} the same instruction as line {number}, and the rule is about it too", file=sys.stderr)
    return found


def grows(draft: Draft, given: argparse.Namespace) -> Iterator[str]:
    """Never falls: a number is what it was at first, and all that was added to it."""
    name = draft.static(given.name)
    writers = draft.writers(name)
    if not writers:
        raise NotRead(f"no instruction of {draft.section.name} writes to {name.name}, so it neither grows nor falls")
    if name.size > 16:
        raise NotRead(f"{name.name} has {name.size} bytes, and a sum binds at most 16")
    total, wraps = draft.free("added"), draft.free("wraps")
    lines, others = [], []
    for it in writers:
        amount = amount_of(it, name, draft, given.by)
        if amount is None:
            others.append(it)
        else:
            lines.append(f"#@ on turn {pattern(it, draft)} add {total} {amount}")
            lines += [] if given.may_wrap else [f"#@ on turn {pattern(it, draft, '1?')} spend {wraps} 1"]
    if not lines:
        raise NotRead(f"nothing adds to {name.name}: line {others[0].line} writes it by {others[0].word}" +
                      ("; --by names the public bytes that ADDN adds" if others[0].word == "ADDN" else ""))
    end = ", modulo its size" if given.may_wrap else ", and no addition goes past its end"
    yield f"# {name.name} never falls: it is {draft.initial(name)} and all that was added{end}."
    yield from draft.app()
    yield f"#@ sum {total} 0"
    if not given.may_wrap:
        yield f"#@ allow {wraps} 0"
    yield from dict.fromkeys(lines)
    yield f"#@ always SB[{name.offset}..{name.offset + name.size - 1}] = {draft.initial(name)} + {total}"
    for it in others:
        yield f"# Line {it.line} writes {name.name} by {it.word}, which adds nothing: the rule is broken if it changes the number."


def amount_of(it: Instruction, name: Name, draft: Draft, by: Optional[str]) -> Optional[str]:
    """Returns what an instruction adds to a name, or None if that is no addition that a sum has."""
    if not it.is_of(name):
        return None
    if it.word == "INCN":
        return "1"
    if it.word in ("ADDB", "ADDW"):
        return str(int(it.constant, 0))
    if it.word == "ADDN" and by is not None:
        public = draft.section.names.get(by)
        if public is None or public.register != "PB":
            raise NotRead(f"{by} names no public bytes of {draft.section.name}")
        return f"PB[{public.offset}..{public.offset + public.size - 1}]"
    return None


def whole(draft: Draft, given: argparse.Namespace) -> Iterator[str]:
    """Written whole: the names change while writes wait, and one commit writes them."""
    names = [draft.static(it) for it in given.names]
    for name in names:
        if not draft.writers(name):
            raise NotRead(f"no instruction of {draft.section.name} writes to {name.name}")
    if not any(it.text == "PRIM 3,2" for it in draft.code):
        raise NotRead(f"{draft.section.name} has no PRIM 3,2, which begins a transaction: put it before the first write")
    waits = draft.free("waits")
    yield f"# {', '.join(it.name for it in names)}: written whole, in one transaction. Below a command that does it, `#! whole` lets a sweep test it."
    yield from draft.app()
    yield f"#@ allow {waits} 0"
    yield f"#@ on command * allow {waits} 0"
    yield f"#@ on turn *PRIM 3,2* allow {waits} 1"
    for it in dict.fromkeys(pattern(it, draft) for name in names for it in draft.writers(name)):
        yield f"#@ on turn {it} need {waits} 1"
    yield f"#@ on turn *PRIM 3,1* spend {waits} 1"


IDIOMS = {"pin": pin, "after": after, "grows": grows, "whole": whole}


def names_of(given: argparse.Namespace) -> List[str]:
    """Returns the names of static bytes that the words of an idiom have, by which its section is found."""
    named: Dict[str, List[Optional[str]]] = {
        "pin": [getattr(given, "secret", None), getattr(given, "tries", None)], "after": [getattr(given, "secret", None)],
        "grows": [getattr(given, "name", None)], "whole": list(getattr(given, "names", None) or [])}
    return [it for it in named[given.idiom] if it is not None]


def tried(draft: Draft, lines: List[str]) -> int:
    """Says whether the rules are proved, and returns the status."""
    text = draft.source.draft + ("" if draft.text.endswith("\n") else "\n").encode() + "".join(f"{line}\n" for line in lines).encode()
    deck = terminal.run([program_path("meldesk"), "deck"], text)
    ran = terminal.run([program_path("mellab"), "prove"], deck.text.encode("utf-8", "surrogateescape"), "prove")
    found = [line.partition(" ; created")[0] for line in ran.text.splitlines() if line.startswith(("broken ", "unknown ", "line "))]
    print("\n".join([*found, ran.text.rstrip().rpartition("\n")[2] if deck.status == 0 else deck.errors.strip()]), file=sys.stderr)
    return 1 if ran.status or deck.status else 0


def add_words(words: argparse.ArgumentParser) -> None:
    """Adds the words of the command."""
    idioms = words.add_subparsers(dest="idiom", metavar="IDIOM", required=True)
    for name, idiom in IDIOMS.items():
        one = idioms.add_parser(name, help=(idiom.__doc__ or "").rstrip("."), description=idiom.__doc__)
        one.add_argument("draft", metavar="DRAFT", help="a draft, a deck, or a file in C")
        if name == "after":
            one.add_argument("deed", metavar="DEED", help="static bytes that are written, a label, or the number of a line")
        if name in ("pin", "after"):
            one.add_argument("secret", metavar="SECRET", help="the static bytes that are compared")
        if name == "pin":
            one.add_argument("--tries", metavar="NAME", help="the static byte that counts the tries that are left")
            one.add_argument("--count", type=int, metavar="N", help="how many tries (what --tries holds at first, else 3)")
        if name == "grows":
            one.add_argument("name", metavar="NAME", help="the static bytes of the number")
            one.add_argument("--by", metavar="NAME", help="the public bytes that ADDN adds to it")
            one.add_argument("--may-wrap", action="store_true", help="let an addition go past the end and begin with 0 again")
        if name == "whole":
            one.add_argument("names", nargs="+", metavar="NAME", help="the static bytes that change together")
        one.add_argument("--section", metavar="NAME", help="the section, if several have the names")
        one.add_argument("--try", action="store_true", dest="is_tried", help="say on the standard error whether the rules are proved")


def main(given: argparse.Namespace) -> int:
    """Writes the lines of an idiom.

    # Errors

    NotRead, if the draft has nothing that the idiom is about.
    """
    if getattr(given, "count", None) is not None and not 1 <= given.count <= 255:
        raise NotRead("--count is 1 to 255")
    draft = Draft(sources.read(Path(given.draft)), given.section, names_of(given))
    lines = list(IDIOMS[given.idiom](draft, given))
    labtexts.end_with_reader()
    print("\n".join(lines))
    if draft.computed() and given.idiom in ("grows", "whole", "after"):
        numbers = ", ".join(map(str, draft.computed()))
        print(f"mel rules: line {numbers} writes to an address that only a play shows, and no rule here speaks of it", file=sys.stderr)
    return tried(draft, lines) if given.is_tried else 0
