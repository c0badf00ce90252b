"""`mel check`: what is wrong with a draft and with its rules, and what wants a look, in the form that editors read.

    mel check [DRAFT ..]

The lines are those of `meldesk explain`, NAME:LINE:COLUMN: CAUSE: TEXT, and besides

- each rule that `mellab` refuses, with the word at which it is wrong, and what to write;
- the names of a declaration that is refused, in the line of that declaration: no line of its own for each instruction that names them;
- of code that is too long, the first line and the number of lines after it;
- a byte order mark at the head of the file;
- warnings for an instruction of one byte on a name of two, and for an EXITSW that is no 6xxx and no 9xxx.

The status is 0 if there are warnings alone, 1 if something is refused, and 2 if a draft cannot be read.
"""

from __future__ import annotations

import argparse
import difflib
import re
from dataclasses import dataclass
from pathlib import Path
from typing import Dict, Iterator, List, Optional, Tuple

import labtexts
import sources
import terminal
from card import program_path
from labtexts import DECLARES
from sources import Source

MARK = b"\xef\xbb\xbf"
LINE = re.compile(r"(\d+):(\d+): ([^:]+): (.*)$")
REFUSED = re.compile(r"line (\d+) ([A-Z]\w*)$")
QUOTED = re.compile(r"`(\w+)")
# Causes of a line that has a name which an earlier line was to declare.
OF_NAMES = ("BadNumber", "BadOperands", "UnknownName")
BYTES = re.compile(r"(SETB|CMPB|ADDB|SUBB)[ \t]+([A-Za-z_]\w*)[ \t]*,")
EXITS = re.compile(r"(EXITSW|EXITSWLA)[ \t]+(0x[0-9A-Fa-f]{1,4}|\d+|[A-Za-z_]\w*)")
HEADER = {"Lc", "Le", "La", "SW"}
MOST = 200  # rules that are read again after a refused one
LISTED = 8  # lines that are listed by their numbers

RULES = ("app", "any", "allow", "sum", "on", "never", "always", "move")
EVENTS = ("turn", "kept", "read", "write", "command", "answer", "session")
DEEDS = ("allow", "spend", "need", "add", "take")
FORMS = {
    "app": "`#@ app NAME`", "allow": "`#@ allow NAME K`", "sum": "`#@ sum NAME K`", "never": "`#@ never abend`", "any": "`#@ any`",
    "always": "`#@ always SB[P] LOW HIGH`, or `#@ always SB[P..Q] = K + NAME - NAME`", "move": "`#@ move power`, `select`, `delete` or `apdu`",
    "turn": "`#@ on turn TURN DEED NAME K`", "command": "`#@ on command APDU DEED NAME K`", "answer": "`#@ on answer APDU gives RESULT DEED NAME K`",
    "session": "`#@ on session DEED NAME K`", "on": "`#@ on MOVE gives RESULT allow NAME K`, or `spend`; below `#@ app` the word after `on` is "
    "turn, command, answer or session"}
# The number of fields of a rule.
COUNTS = {"app": 3, "any": 2, "allow": 4, "sum": 4, "never": 3, "always": 5, "move": 3}
AMOUNT = "a number of decimal digits, at most 4294967295; write the number"


@dataclass
class Fault:
    """What is wrong with a line, or `warning`: the line of the draft, the column from 1 on, the cause, and a text."""

    line: int
    column: int
    cause: str
    text: str

    @property
    def is_warning(self) -> bool:
        """Returns whether nothing is refused."""
        return self.cause == "warning"


def said(source: Source, fault: Fault) -> str:
    """Returns the line of a fault; of a file in C, with the place in C."""
    if source.is_c and fault.line:
        return f"{source.place(fault.line)}: {fault.cause}: {fault.text}"
    return f"{source.path}:{fault.line}:{fault.column}: {fault.cause}: {fault.text}"


def faults_of(source: Source) -> Tuple[List[Fault], int]:
    """Returns what is wrong with a draft in the order of its lines, the refusal that the programs write first, and the worst status of
    `meldesk` that is above 1, or 0."""
    found: List[Fault] = []
    draft = source.draft
    if draft.startswith(MARK):
        found.append(Fault(1, 1, "BadLine", "a byte order mark (EF BB BF) stands here; expected the first character of a draft; save the file as "
                           "UTF-8 without it"))
        draft = draft[len(MARK):]
    lines = labtexts.lines_of(draft.decode("utf-8", "replace"))
    long, draft = too_long(draft, lines)
    ran = terminal.run([program_path("meldesk"), "explain", "-"], draft)
    read = [Fault(int(it[1]), int(it[2]), it[3], it[4]) for it in (LINE.match(line[2:]) for line in ran.text.splitlines()) if it is not None]
    if long and terminal.run([program_path("meldesk"), "list"], draft).status == 0:
        # What is left is read, and what is said of its code is of a part of it.
        sections = sections_of(lines)
        read = [it for it in read if not 0 < it.line <= len(lines) or sections[it.line - 1] != sections[long[0].line - 1]]
    found += long + folded(read, lines)
    if not any(not it.is_warning for it in found):
        found += rules(draft, lines)
    found += warnings(lines, {it.line for it in found})
    first = next((it for it in found if not it.is_warning), None)
    rest = sorted((it for it in found if it is not first), key=lambda it: (it.line, it.column))
    return ([first] if first is not None else []) + rest, ran.status if ran.status > 1 else 0


# ---- code


def too_long(draft: bytes, lines: List[str]) -> Tuple[List[Fault], bytes]:
    """Returns the line of code that is too long, if there is one, and the draft without the code from there on; its labels are kept."""
    ran = terminal.run([program_path("meldesk"), "list"], draft)
    refused = REFUSED.match(ran.text.strip())
    if refused is None or refused[2] != "TooLong" or not 0 < int(refused[1]) <= len(lines):
        return [], draft
    number, more = int(refused[1]), 0
    kept = draft.split(b"\n")
    for place in range(number - 1, len(lines)):
        fields = labtexts.fields_of(lines[place])
        if fields == ["end"]:
            break
        if not fields or fields[0].startswith(";") or fields[0] in (*DECLARES, "DATA"):
            continue
        more += place >= number
        label = re.match(r"[ \t]*\w+:", lines[place])
        kept[place] = label[0].encode() if label is not None else b""
    text = "the code of the section passes 8192 bytes here; expected at most 8192; share routines, or divide the application and delegate"
    return [Fault(number, 1, "TooLong", text + (f"; {more} lines of code follow" if more > 1 else "; 1 line of code follows" if more else ""))], \
        b"\n".join(kept)


def folded(found: List[Fault], lines: List[str]) -> List[Fault]:
    """Returns faults without those of lines that name what a refused line was to declare: their numbers stand in the declaration's text."""
    sections = sections_of(lines)
    found = [with_limit(it, lines, sections) for it in found]
    names: Dict[Tuple[int, str], Fault] = {}
    for it in found:
        fields = labtexts.fields_of(lines[it.line - 1]) if 0 < it.line <= len(lines) else []
        if not it.is_warning and len(fields) > 1 and fields[0] in DECLARES and it.cause != "NameTwice":
            names[sections[it.line - 1], fields[1]] = it
    follow: Dict[int, List[int]] = {}
    kept = []
    for it in found:
        name = QUOTED.match(it.text)
        first = names.get((sections[it.line - 1], name[1])) if name is not None and it.cause in OF_NAMES and 0 < it.line <= len(lines) else None
        if first is None or first is it:
            kept.append(it)
        else:
            follow.setdefault(first.line, []).append(it.line)
    for it in kept:
        if it.line in follow and not it.is_warning:
            it.text += f"; so {listed(follow.pop(it.line))} has a name that is not declared" if len(follow[it.line]) == 1 else \
                f"; so {listed(follow.pop(it.line))} have a name that is not declared"
    return kept


# The greatest number of bytes of a section, by the word that declares them.
LIMITS = {"STATIC": (4096, "static"), "SESSION": (256, "session"), "PUBLIC": (1041, "public")}


def with_limit(fault: Fault, lines: List[str], sections: List[int]) -> Fault:
    """Returns a fault of a declaration with the limit that it passes, if that is what is wrong."""
    fields = labtexts.fields_of(lines[fault.line - 1].partition(";")[0]) if 0 < fault.line <= len(lines) else []
    if fault.cause != "OutOfRange" or fields[:1] not in [[it] for it in DECLARES] or len(fields) < 3:
        return fault
    said = f"`{lines[fault.line - 1][fault.column - 1:].split()[0]}` stands here; " if lines[fault.line - 1][fault.column - 1:].split() else ""
    if fields[0] == "CONST":
        fault.text = f"{said}expected a number of -32768 to 65535; write one"
        return fault
    most, kind = LIMITS[fields[0]]
    size = word_of(fields[3] if fields[0] == "PUBLIC" and len(fields) > 3 else fields[2])
    before = word_of(fields[2]) if fields[0] == "PUBLIC" else 0
    if fields[0] != "PUBLIC":
        for number, section in enumerate(sections[:fault.line - 1]):
            above = labtexts.fields_of(lines[number])
            if section == sections[fault.line - 1] and above[:1] == fields[:1] and len(above) > 2:
                count = word_of(above[2])
                before += count if 0 < count <= most - before else 0
    if size == 0:
        fault.text = f"{said}expected a size of 1 at least; write how many bytes the name has"
    elif fields[0] == "STATIC" and len(fields) > 3 and len(fields[3]) != 2 * size and before + size <= most:
        fault.text = f"{said}expected {size} bytes in hexadecimal, {2 * size} digits, and there are {len(fields[3])}; write as many as the size says"
    else:
        fault.text = f"{said}expected at most {most} {kind} bytes, and with this line there are {before + size}; make the size smaller"
    return fault


def listed(numbers: List[int]) -> str:
    """Returns numbers of lines as a text."""
    numbers = sorted(dict.fromkeys(numbers))
    if len(numbers) > LISTED:
        return f"lines {', '.join(map(str, numbers[:LISTED]))} and {len(numbers) - LISTED} more"
    return f"line {numbers[0]}" if len(numbers) == 1 else f"lines {', '.join(map(str, numbers))}"


def sections_of(lines: List[str]) -> List[int]:
    """Returns for each line the section that it is in, as the number of its first line; a rule is of the one that `#@ app` names; else 0."""
    found, heads, inside, named = [], {}, 0, 0
    for number, line in enumerate(lines, 1):
        fields = labtexts.fields_of(line)
        if inside:
            found.append(inside)
            inside = 0 if fields == ["end"] else inside
            continue
        if fields[:1] == ["app"] and len(fields) > 1:
            inside = heads[fields[1]] = number
        elif fields[:2] == ["#@", "app"] and len(fields) > 2:
            named = heads.get(fields[2], 0)
        found.append(inside or (named if fields[:1] == ["#@"] else 0))
    return found


def warnings(lines: List[str], refused: "set[int]") -> Iterator[Fault]:
    """Yields what the assembler takes and hardly anyone means: a byte instruction on a name of two bytes, an exit with no status word."""
    sections, sizes, numbers = sections_of(lines), {}, {}
    for number, (line, section) in enumerate(zip(lines, sections), 1):
        code = line.partition(";")[0]
        fields = labtexts.fields_of(code)
        if not section or not fields or fields[0] == "#@" or number in refused:
            continue
        if fields[0] in DECLARES and len(fields) > 2:
            size = fields[3] if fields[0] == "PUBLIC" and len(fields) > 3 else fields[2]
            (numbers if fields[0] == "CONST" else sizes)[section, fields[1]] = size
            continue
        found = BYTES.search(code)
        if found is not None and (sizes.get((section, found[2])) == "2" or found[2] in HEADER):
            yield Fault(number, found.start(2) + 1, "warning", f"`{found[2]}` stands here; {found[1]} takes its first byte alone, the high one of two; "
                        f"write {found[1][:3]}W for both, or `{found[2]}+1` for the low one")
        found = EXITS.search(code)
        if found is not None and 0 <= word_of(numbers.get((section, found[2]), found[2])) and \
                word_of(numbers.get((section, found[2]), found[2])) >> 12 not in (6, 9):
            yield Fault(number, found.start(2) + 1, "warning", f"`{found[2]}` stands here; expected a status word 6xxx or 9xxx, which are all that "
                        "ISO 7816 has; write one of those")


def word_of(text: str) -> int:
    """Returns a number as it is written, or -1 if it is none."""
    try:
        return int(text, 16) if text.lower().startswith("0x") else int(text)
    except ValueError:
        return -1


# ---- rules


def rules(draft: bytes, lines: List[str]) -> List[Fault]:
    """Returns the rules that `mellab` refuses of a draft that is read: it is asked again without each that was refused."""
    made = terminal.run([program_path("meldesk"), "deck"], draft)
    deck = labtexts.lines_of(made.text)
    if made.status or not any(it.mark == "#@" or it.text.startswith("@") for it in labtexts.remarks_of(deck)) and \
            not any(line.lstrip(" \t").startswith("#@") for line in deck):
        return []
    found: List[Fault] = []
    is_app_refused = False
    while len(found) < MOST:
        ran = terminal.run([program_path("mellab"), "explore", "1", "--states", "1"], "".join(f"{it}\n" for it in deck).encode("utf-8", "surrogateescape"))
        refused = REFUSED.match(ran.text.strip())
        if refused is None or not 0 < int(refused[1]) <= len(deck):
            return found
        number, cause = int(refused[1]), refused[2]
        fields = labtexts.fields_of(deck[number - 1])
        if not fields or not fields[0].startswith("#@"):
            return found
        if not (cause == "NoApplication" and is_app_refused):
            found.append(fault_of(number, cause, fields, lines[number - 1], deck[:number - 1]))
        is_app_refused = is_app_refused or fields[:2] == ["#@", "app"]
        # A refused line is left out, but what it names is there for the lines below it.
        named = len(fields) > 2 and fields[1] in ("allow", "sum") and cause in ("BadLine", "BadNumber", "OutOfRange") and re.fullmatch(r"\w{1,32}", fields[2])
        deck[number - 1] = f"#@ {fields[1]} {fields[2]} 0" if named and deck[number - 1] != f"#@ {fields[1]} {fields[2]} 0" else "#"
    return found


def fault_of(number: int, cause: str, fields: List[str], line: str, above: List[str]) -> Fault:
    """Returns the fault of a refused rule: where in the draft's line, and what is expected there."""
    place, expected = blamed(cause, fields, above)
    starts = [it.start() for it in re.finditer(r"[^ \t]+", line)]
    words = re.findall(r"[^ \t]+", line)
    if place >= len(words):
        return Fault(number, len(line.rstrip()) + 1, cause, f"the line ends here; expected {expected}")
    return Fault(number, starts[place] + 1, cause, f"`{words[place]}` stands here; expected {expected}")


def near(word: str, known: "Tuple[str, ...] | List[str]") -> str:
    """Returns what a word was to be, as a remedy, or what there is."""
    close = difflib.get_close_matches(word, known, 1, 0.6)
    return f"write {close[0]}" if close else f"there {'is' if len(known) == 1 else 'are'} {', '.join(known) or 'none'}"


def blamed(cause: str, fields: List[str], above: List[str]) -> Tuple[int, str]:
    """Returns which field of a rule is wrong, and what is expected in its place."""
    first = fields[1] if len(fields) > 1 else ""
    names = [labtexts.fields_of(it)[2] for it in above if re.match(r"[ \t]*#@[ \t]+(allow|sum)[ \t]+\w+", it)]
    deed = next((place for place in range(len(fields) - 1, 2, -1) if fields[place] in DEEDS), 0) if first == "on" else 0
    if cause == "NoApplication":
        return 1, "a line `#@ app NAME` above: this rule speaks of one application"
    if cause == "NameTwice":
        return 2, "a name that no line above has; take another"
    if cause == "UnknownName" and first == "app":
        return 2, "a section or unit that a `load` line above brings onto the card; name that"
    if cause == "UnknownName":
        if first == "always":
            place = next((at for at in range(4, len(fields)) if re.match(r"\w", fields[at]) and not fields[at].isdigit() and fields[at] not in names), 2)
        else:
            place = deed + 1 if deed else len(fields) - 2
        return place, f"a name of an `allow` or `sum` line above; {near(fields[place] if place < len(fields) else '', names)}"
    if cause == "BadName":
        return (deed + 1 if deed else 2), "a name of 1 to 32 letters, digits and underscores; write one"
    if cause in ("BadNumber", "OutOfRange") and first in ("on", "allow", "sum"):
        return len(fields) - 1, AMOUNT
    if cause in ("BadNumber", "OutOfRange") and first == "always":
        return 2, "a place of the application's static bytes, and numbers that fit; mend the place or the number"
    if cause != "BadLine" or first == "move":
        return 2, f"{FORMS['move']} with a statement that a deck may have; mend the statement"
    return bad_line(fields, first, deed)


def bad_line(fields: List[str], first: str, deed: int) -> Tuple[int, str]:
    """Returns which field makes a line no rule, and what is expected in its place."""
    if fields[0] != "#@":
        return 0, "`#@` and a blank; put the blank in"
    if first not in RULES:
        return 1, f"the word of a rule; {near(first, RULES)}"
    if first != "on":
        if first == "never":
            return 2, f"{FORMS[first]}; write abend" if len(fields) != 3 or fields[2] != "abend" else FORMS[first]
        count = COUNTS[first]
        return (len(fields) if len(fields) < count else 2 if first == "always" else count), f"{FORMS[first]}; write that"
    event = fields[2] if len(fields) > 2 else ""
    form = FORMS.get(event, FORMS["on"])
    if event not in EVENTS and "gives" not in fields[3:] and "turns" not in fields[3:]:
        return 2, f"{FORMS['on']}; {near(event, EVENTS)}"
    if not deed:
        place = len(fields) - 3 if len(fields) > 5 else len(fields)
        word = fields[place] if place < len(fields) else ""
        return place, f"what the event does: allow, spend, need, add or take; {near(word, DEEDS)}"
    return deed, f"{form}; write that"


# ---- the command


def add_words(words: argparse.ArgumentParser) -> None:
    """Adds the words of `mel check`."""
    words.add_argument("drafts", nargs="*", metavar="DRAFT", help="drafts, files in C, or folders of them (the working folder)")


def main(given: argparse.Namespace) -> int:
    """Writes what is wrong with drafts."""
    labtexts.end_with_reader()
    status = 0
    for path in sources.paths_of(given.drafts):
        source = sources.read(path)
        found, ended = faults_of(source)
        for it in found:
            print(terminal.painted(said(source, it), "look" if it.is_warning else "bad"))
        if ended:
            print(f"{source.path}: {terminal.ended('meldesk', ended)}")
        status = max(status, 1 if ended or any(not it.is_warning for it in found) else 0)
        if not found and not ended:
            print(f"{source.path}: nothing is wrong")
    return status
