#!/usr/bin/env python3
"""Writes what `mellab` wrote as JUnit XML, a case for each line of a deck that is tested, for services that show tests.

    tools/mel/junit.py [--no-between] TEXT [DECK]        one text, of `mellab expect`, `sweep`, `explore` or `prove`; - is the standard input
    tools/mel/junit.py [--no-between] --campaign FOLDER  a folder of texts and statuses, as docs/LABORATORY.md fills it; its decks are looked
                                                     for from the working folder on, or from --decks

The cases of `expect` are the expectations of the deck, those of `sweep` the swept lines, those of `explore` the rules that can be
broken, those of `prove` all its rules; of a refused deck it is its refused line. If no deck is given, there is a case for each line of the text alone. A
swept line fails if it is torn, or must be whole and is not, and with --no-between also if it is between. A rule is skipped if no try fits it,
not all was explored, or another rule was broken first. A text that has something broken is never without a failure.

It needs Python 3.9. It ends with 1 if a case failed, and with 2 if it cannot read what it is given, if a folder has no texts, or if a text is of
another deck.
"""

import argparse
import re
import sys
import xml.etree.ElementTree as xml
from pathlib import Path
from typing import Iterator, List, Optional, Tuple

import fits
import labtexts
from labtexts import BadText, Text

# A case: its name, the kind of its fault (`failure`, `error`, `skipped` or none), and what is said of that.
Case = Tuple[str, Optional[str], str]
NO_CHARACTERS = re.compile("[^\t\n\r\x20-\ud7ff\ue000-\ufffd\U00010000-\U0010ffff]")


def named(number: int, statement: str) -> str:
    """The name of the case of a line."""
    return f"line {number}: {' '.join(statement.split())}" if statement else f"line {number}"


def statement_of(lines: List[str], number: int) -> str:
    """A line of the deck, or nothing if there is no deck."""
    return lines[number - 1] if 0 < number <= len(lines) else ""


def expected(text: Text, lines: List[str]) -> Iterator[Case]:
    """The cases of expectations."""
    numbers = [it.number for it in labtexts.remarks_of(lines) if it.mark == "#>"] or sorted(text.failed)
    for number in numbers:
        it = text.failed.get(number)
        remark = f"expected {it.wanted} was {it.was} (line {it.line} {it.statement})" if it is not None else ""
        yield named(number, statement_of(lines, number)), "failure" if it is not None else None, remark
    if not numbers:
        yield "the expectations", None, text.last


def swept(text: Text, lines: List[str], no_between: bool) -> Iterator[Case]:
    """The cases of swept lines."""
    for it in text.swept:
        is_bad = it.has("torn") or it.is_broken or no_between and it.has("between")
        runs = " ".join(f"{word} {first}-{last}" for word, first, last in it.runs) + (" not whole" if it.is_broken else "")
        yield named(it.number, statement_of(lines, it.number)), "failure" if is_bad else None, f"writes {it.writes}: {runs}"
    for number in text.unswept:
        yield named(number, statement_of(lines, number)), "failure", "this mark is of no swept line"


def explored(text: Text, lines: List[str]) -> Iterator[Case]:
    """The cases of the rules that can be broken, and of those that no try fits. What was not explored whole is skipped: so are the other
    rules if one is broken, since the search ends there."""
    remark, is_all, found = "\n".join(text.path), text.last.endswith(" all") and text.broken is None, 0
    for it in labtexts.remarks_of(lines):
        rule = fits.name_of(it.text.split()) if it.mark == "#@" else None
        is_silent = it.number in text.silent
        if rule is None and not is_silent:
            continue
        found += 1
        is_broken = rule is not None and rule == text.broken
        kind = "failure" if is_broken else None if is_all and not is_silent else "skipped"
        said = "no try fits it" if is_silent else text.last if text.broken is None else f"the search ended where {text.broken} was broken"
        yield named(it.number, statement_of(lines, it.number)), kind, remark or f"broken {text.broken}" if is_broken else said
    if not found:
        yield "explored", "failure" if text.broken else None if is_all else "skipped", remark or text.last or f"broken {text.broken}"


def proved(text: Text, lines: List[str]) -> Iterator[Case]:
    """The cases of rules that are proved, and of what is behind none of them."""
    faults = {number: line for number, line in text.unproved}
    rules = [it for it in labtexts.remarks_of(lines) if it.mark == "#@" and it.text.split()[:1] in (["on"], ["never"], ["always"])]
    for it in rules:
        yield named(it.number, statement_of(lines, it.number)), "failure" if it.number in faults else None, faults.get(it.number, text.last)
    others = [line for number, line in text.unproved if number not in {it.number for it in rules}]
    if others or not rules:
        yield "proved", None if text.last.startswith("proved") else "failure", "\n".join([*others, text.last])


def cases(text: Text, lines: List[str], status: Optional[int], no_between: bool) -> Iterator[Case]:
    """The cases of a text, and one more if the job did not end well, or what did not hold is of none of the deck's lines."""
    is_bad = False
    for case in cases_of(text, lines, no_between):
        is_bad = is_bad or case[1] in ("failure", "error")
        yield case
    if status is not None and status not in (0, 1, 6):
        yield "the job", "error", f"status {status}: {labtexts.MEANINGS.get(status, 'ended by a signal')}"
    elif text.refused is None and not text.is_whole:
        yield "the job", "error", "its text has no end"
    elif not is_bad and (status == 1 or did_not_hold(text)):
        yield "the job", "failure", "\n".join([text.last, *text.path, *(line for _, line in text.unproved)])


def cases_of(text: Text, lines: List[str], no_between: bool) -> Iterator[Case]:
    """The cases of a text by its job."""
    if text.refused is not None:
        number, cause = text.refused
        yield named(number, statement_of(lines, number)), "error", cause + labtexts.draft_hint(text.refused, lines)
    elif text.kind == "expect":
        yield from expected(text, lines)
    elif text.kind == "sweep":
        yield from swept(text, lines, no_between)
    elif text.kind == "explore":
        yield from explored(text, lines)
    elif text.kind == "prove":
        yield from proved(text, lines)


def did_not_hold(text: Text) -> bool:
    """Whether the text itself says that something did not hold."""
    return bool(text.failed or text.broken or text.unproved or text.unswept or text.last.startswith("not proved")
                or any(it.has("torn") or it.is_broken for it in text.swept))


def clean(text: str) -> str:
    """A text without what XML cannot hold."""
    return NO_CHARACTERS.sub("\ufffd", text)


def suite(name: str, found: List[Case]) -> xml.Element:
    """A suite of cases."""
    counts = {kind: sum(fault == kind for _, fault, _ in found) for kind in ("failure", "error")}
    made = xml.Element("testsuite", name=clean(name), tests=str(len(found)), failures=str(counts["failure"]), errors=str(counts["error"]))
    skipped = sum(fault == "skipped" for _, fault, _ in found)
    if skipped:
        made.set("skipped", str(skipped))
    for case, fault, remark in found:
        element = xml.SubElement(made, "testcase", classname=clean(name), name=clean(case))
        if fault is not None:
            xml.SubElement(element, fault, message=clean(remark.partition("\n")[0])).text = clean(remark)
        elif remark:
            xml.SubElement(element, "system-out").text = clean(remark)
    return made


def suites_of(given: argparse.Namespace) -> List[xml.Element]:
    """The suites of what is asked for."""
    if given.campaign is not None:
        jobs = fits.campaign_of(Path(given.campaign), Path(given.decks))
        return [suite(f"{it.stem}.{it.name}", list(cases(it.text, it.lines, it.status, given.no_between))) for it in jobs]
    text = labtexts.read_text(labtexts.read_given(given.text))
    lines = [] if given.deck is None else labtexts.lines_of(labtexts.read(given.deck))
    if given.deck is not None:
        fits.check(text, lines, given.text)
    name = Path(given.deck or given.text).stem
    return [suite(f"{name}.{text.kind or 'empty'}", list(cases(text, lines, None, given.no_between)))]


def whole(found: List[xml.Element]) -> str:
    """The text of all suites."""
    made = xml.Element("testsuites")
    made.extend(found)
    xml.indent(made)
    return f'<?xml version="1.0" encoding="UTF-8"?>\n{xml.tostring(made, encoding="unicode")}\n'


def main() -> int:
    words = argparse.ArgumentParser(description="Writes what mellab wrote as JUnit XML.")
    words.add_argument("text", nargs="?", help="what mellab wrote; - is the standard input")
    words.add_argument("deck", nargs="?", help="the deck that it is of")
    words.add_argument("--campaign", metavar="FOLDER", help="a folder of texts and statuses")
    words.add_argument("--decks", default=".", help="the folder from which a campaign's decks are named (the working folder)")
    words.add_argument("--no-between", action="store_true", help="a swept line that is between fails too")
    given = words.parse_args()
    if (given.text is None) == (given.campaign is None):
        words.error("give a text, or a campaign's folder")
    try:
        found = suites_of(given)
    except (OSError, BadText) as error:
        print(f"junit.py: {error}", file=sys.stderr)
        return 2
    labtexts.end_with_reader()
    labtexts.write(whole(found))
    return 1 if any(it.get("failures") != "0" or it.get("errors") != "0" for it in found) else 0


if __name__ == "__main__":
    sys.exit(main())
