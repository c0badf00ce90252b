"""The jobs by which `mel test` tries a draft: each runs a program over it, and says in a few words what came of it.

A job *passed*, *failed*, wants a *look* (it did not fail, but shows something that a writer wants to know), or was *left out*.
"""

from __future__ import annotations

import json
import re
import sys
import tempfile
import time
from dataclasses import asdict, dataclass, field
from pathlib import Path
from typing import Callable, Dict, Iterator, List, Optional, Tuple

import faults
import labtexts
import report
import terminal
from card import program_path
from labtexts import BadText, Job
from sources import HERE, Source

PASSED, FAILED, LOOK, LEFT_OUT = "passed", "failed", "look", "left out"
KINDS = {report.GOOD: PASSED, report.LOOK: LOOK, report.BAD: FAILED}
# What a deck has for a job: without it the job is left out, with this reason.
ASKS = {"expect": (r"#>", "the draft has no expectation, a line `#>`"), "explore": (r"#@[ \t]+move[ \t]", "the draft has no line `#@ move`"),
        "prove": (r"#@[ \t]+app[ \t]", "the draft has no line `#@ app`")}
ABOUT_STATUS = 6  # of an exploration that has not explored all
MOST_LINES = 20   # of what a job shows
VERDICT = re.compile(r"(\d+) (accept (\d+)|refuse .*)$")


@dataclass
class Done:
    """What came of a job: its name, its verdict, a few words, how long it took, the status of its program, what that wrote, and the lines
    that a writer is shown."""

    job: str
    verdict: str
    said: str
    seconds: float = 0.0
    status: Optional[int] = None
    text: str = ""
    shown: List[str] = field(default_factory=list)


@dataclass
class Options:
    """How the jobs are run: the depth of explorations, how many mutants at a time, the seconds of one mutant's job, and whether a line
    of progress is shown."""

    depth: int = 40
    jobs: int = 1
    seconds: float = 60
    is_shown: bool = True


@dataclass
class Trial:
    """A draft under trial: its source, its deck, and the options."""

    source: Source
    options: Options
    deck: str = ""
    mutants: str = ""

    def run(self, job: str, program: str, words: List[str], given: bytes, **more: Callable[[], str]) -> terminal.Ran:
        """Runs a program for a job."""
        return terminal.run([program_path(program), *words], given, job, is_shown=self.options.is_shown, **more)


def count_of(count: int, what: str) -> str:
    """Returns a number of things."""
    return f"{count} {what}" if count == 1 else f"{count} {what}s"


def explain(it: Trial) -> Done:
    """Tries whether the draft is read, and makes its deck."""
    begin = time.monotonic()
    found, status = faults.faults_of(it.source)
    lines = [faults.said(it.source, fault) for fault in found]
    warnings = sum(fault.is_warning for fault in found)
    made = it.run("explain", "meldesk", ["deck"], it.source.draft)
    it.deck = made.text
    seconds, text = time.monotonic() - begin, "".join(f"{line}\n" for line in lines)
    if status or made.status or len(lines) > warnings:
        said = count_of(len(lines) - warnings, "fault") if lines else made.errors.strip() or terminal.ended("meldesk", status or made.status)
        return Done("explain", FAILED, said, seconds, status or made.status or 1, text, lines or made.errors.splitlines())
    return Done("explain", LOOK if warnings else PASSED, count_of(warnings, "warning") if warnings else "", seconds, 0, text, lines)


def check(it: Trial) -> Done:
    """Tries whether the stack checker accepts the code of each load."""
    ran = it.run("check", "meldesk", ["check"], it.source.draft)
    lines = ran.text.splitlines()
    found = [VERDICT.match(line) for line in lines]
    heights = [int(one[3]) for one in found if one is not None and one[3] is not None]
    if ran.status:
        return Done("check", FAILED, count_of(len(lines) - len(heights), "load") + " refused" if all(found) else ran.text.strip(), ran.seconds,
                    ran.status, ran.text, lines)
    if not heights:
        return Done("check", LEFT_OUT, "the draft loads no application", ran.seconds, 0, ran.text)
    return Done("check", PASSED, f"{count_of(len(heights), 'load')} accepted, a stack of at most {count_of(max(heights), 'byte')}", ran.seconds, 0,
                ran.text)


def judged(it: Trial, words: List[str]) -> Done:
    """Runs a job of mellab, and judges what it wrote as the page of a campaign does."""
    job = words[0]
    ran = it.run(job, "mellab", words, it.deck.encode("utf-8", "surrogateescape"))
    try:
        text = labtexts.read_text(ran.text)
    except BadText as why:
        return Done(job, FAILED, f"its text is not understood: {why}", ran.seconds, ran.status, ran.text)
    lines = labtexts.lines_of(it.deck)
    said, kind = report.verdict(Job(job, f"{it.source.name}.deck", ran.status, Path(), text, lines, it.source.path))
    # The status has the last word: what it calls wrong is not passed, whatever was read of the text.
    verdict = FAILED if ran.status not in (0, ABOUT_STATUS) else KINDS[kind]
    return Done(job, verdict, said, ran.seconds, ran.status, ran.text, list(shown_of(text, ran.text, lines)))


def shown_of(text: labtexts.Text, whole: str, lines: List[str]) -> Iterator[str]:
    """Returns the lines of a text that a writer wants to see: what failed, and what wants a look."""
    if text.refused is not None and 0 < text.refused[0] <= len(lines):
        yield f"line {text.refused[0]}: {lines[text.refused[0] - 1].strip()}"
    for line in labtexts.lines_of(whole):
        if labtexts.DIFFERS.match(line) or labtexts.BROKEN_RULE.match(line) or labtexts.UNKNOWN.match(line) or labtexts.NOT_SWEPT.match(line):
            yield line
        elif labtexts.BROKEN.match(line) or line in text.path:
            yield line
        elif labtexts.SWEPT.match(line) and (" not whole" in line or " torn " in line or " between " in line):
            yield line
        elif silent := labtexts.SILENT.match(line):
            yield f"no try fits line {silent[1]}: {lines[int(silent[1]) - 1].strip() if int(silent[1]) <= len(lines) else ''}"


def cover(it: Trial) -> Done:
    """Counts the lines of code that no command reached, and the ways of branches that were not taken."""
    ran = it.run("cover", "meldesk", ["cover", str(it.source.path)], it.source.draft)
    if ran.status:
        return Done("cover", FAILED, ran.text.strip() or terminal.ended("meldesk", ran.status), ran.seconds, ran.status, ran.text)
    rows = [line.partition(":")[::2] for line in ran.text.splitlines()]
    lines = [value.split(",") for key, value in rows if key == "DA"]
    ways = [value.split(",") for key, value in rows if key == "BRDA"]
    counts: Dict[str, int] = {}
    for number, count in lines:
        counts[it.source.place(int(number))] = counts.get(it.source.place(int(number)), 0) + int(count)
    missed = [place for place, count in counts.items() if not count]
    one_way = [place for place in dict.fromkeys(it.source.place(int(way[0])) for way in ways if way[3] in ("0", "-")) if place not in missed]
    if not lines:
        return Done("cover", LEFT_OUT, "the draft has no code", ran.seconds, 0, ran.text)
    shown = [f"no command ran {place}" for place in missed] + [f"the branch of {place} went one way alone" for place in one_way]
    said = f"{len(counts) - len(missed)} of {count_of(len(counts), 'line')}, {sum(way[3] not in ('0', '-') for way in ways)} of {len(ways)} branch ways"
    return Done("cover", LOOK if shown else PASSED, said, ran.seconds, 0, ran.text, shown)


def mutate(it: Trial) -> Done:
    """Changes the code in one place at a time, and counts the changes that nothing finds."""
    with tempfile.TemporaryDirectory(prefix="melcard-mutate-") as folder:
        draft = Path(folder, f"{it.source.name}.draft")
        draft.write_bytes(it.source.draft)
        tried = Path(folder, "tried")

        def more() -> str:
            """Returns how many mutants were tried."""
            made = list(tried.glob("mutants/*.draft"))
            return f"{len(list(tried.glob('mutants/*.verdict')))} of {len(made)} mutants" if made else ""

        words = [sys.executable, str(HERE / "mutate.py"), str(draft), "--into", str(tried), "--jobs", str(it.options.jobs), "--explore",
                 str(it.options.depth), "--seconds", f"{it.options.seconds:g}"]
        ran = terminal.run(words, b"", "mutate", more, it.options.is_shown)
        kept = tried / f"{it.source.name}.mutants"
        it.mutants = kept.read_text(encoding="utf-8") if kept.is_file() else ""
    lines = ran.text.splitlines()
    if ran.status not in (0, 1):
        said = ran.errors.strip().rpartition("\n")[2].partition(": ")[2].replace(str(draft), it.source.path.name)
        nothing = "nothing that tests it" in said or "has no instruction" in said
        return Done("mutate", LEFT_OUT if nothing else FAILED, said or f"status {ran.status}", ran.seconds, ran.status, ran.errors)
    rows = [json.loads(line) for line in it.mutants.splitlines()]
    left = sum(row["found"] is None for row in rows)
    said = f"{len(rows) - left} of {count_of(len(rows), 'mutant')} found"
    return Done("mutate", LOOK if ran.status else PASSED, said, ran.seconds, ran.status, ran.text, lines[1:] if ran.status else [])


def lab(words: Callable[[Options], List[str]]) -> Callable[[Trial], Done]:
    """Returns the job of mellab with these words, which is left out if the deck has nothing for it."""
    def job(it: Trial) -> Done:
        asked = ASKS.get(words(it.options)[0])
        if asked is not None and re.search(rf"^[ \t]*{asked[0]}", it.deck, re.MULTILINE) is None:
            return Done(words(it.options)[0], LEFT_OUT, asked[1])
        return judged(it, words(it.options))
    return job


JOBS: Dict[str, Callable[[Trial], Done]] = {
    "explain": explain, "check": check, "expect": lab(lambda _: ["expect"]), "sweep": lab(lambda _: ["sweep"]),
    "explore": lab(lambda it: ["explore", str(it.depth)]), "prove": lab(lambda _: ["prove"]), "cover": cover, "mutate": mutate}


def tried(source: Source, names: List[str], options: Options, told: Callable[[Done], None]) -> Tuple[List[Done], Trial]:
    """Runs the named jobs over a draft in their order, passes each result to `told`, and returns all of them. A draft of which no
    deck is made is tried no further."""
    trial, found = Trial(source, options), []
    first = explain(trial)
    if "explain" in names or first.verdict == FAILED:
        found.append(first)
        told(first)
    for name in names:
        if name == "explain":
            continue
        done = JOBS[name](trial) if trial.deck else Done(name, LEFT_OUT, "the draft is not read")
        done.shown = [source.placed(line) for line in done.shown]
        found.append(done)
        told(done)
    return found, trial


def as_json(source: Source, found: List[Done], trial: Trial) -> str:
    """Returns the results of a draft as one line of JSON."""
    return json.dumps({"name": source.name, "path": str(source.path), "deck": trial.deck, "draft": source.draft.decode("utf-8", "surrogateescape"),
                       "mutants": trial.mutants, "jobs": [asdict(it) for it in found]})
