#!/usr/bin/env python3
"""Changes the code of a draft in one place at a time, and shows which changes its tests do not find.

    tools/mel/mutate.py DRAFT [--into FOLDER] [--jobs N] [--explore N] [--seconds S] [--section NAME ..] [--every]

A changed draft is a *mutant*: an instruction is left out, a condition is negated, a constant is one more or one less, two lines are exchanged,
or all protection (PRIM 3) is dropped. The deck of each is tried by `mellab expect`, `sweep`, `explore N` and `prove`, in this order, as far as
the draft itself passes them; the first that ends with another status than it does with the draft has found the mutant, as has one that takes
longer than S seconds. Those that no job found *survive*: each is written with its line, what was changed, and a reason:

    no command runs this line                 the deck never comes there, nor does a move of its rules
    nothing that trace shows differs          perhaps an equal program; perhaps data on which it makes no difference
    trace differs, each result is the same    the card differs inside, and no command or dump shows it
    results differ, and nothing expects them  the deck shows it, and no expectation of that result fails

A sweep finds a line that is torn if it is marked `#! whole`; with --no-between it finds each line with the word `between`. An exploration
finds only what a rule of the deck speaks of.

GNU parallel (Debian: parallel) runs them if it is there, and its log goes to FOLDER/mutants/log; else N threads do. With --into the mutants are
kept in FOLDER/mutants, and FOLDER/DRAFT.mutants has a line of JSON for each, of which tools/mel/report.py makes a part of its page. With --every
those that were found are written too.

It needs Python 3.9, and meldesk, melcard and mellab, built by tools/build or by `rt ci`. It ends with 0 if no mutant survives, with 1 if one
does, and with 2 if the draft is refused or has nothing that tests it.
"""

import argparse
import concurrent.futures
import json
import os
import re
import shutil
import subprocess
import sys
import tempfile
from dataclasses import dataclass
from pathlib import Path
from typing import Any, Dict, Iterator, List, Optional, Tuple

from card import program_path
from labtexts import end_with_reader, fields_of, lines_of, read

DECLARATIONS = ("STATIC", "SESSION", "PUBLIC", "CONST", "DATA")
OPPOSITES = {"EQ": "NE", "NE": "EQ", "LT": "GE", "GE": "LT", "LE": "GT", "GT": "LE"}
# A line of assembly: its label, its instruction, and what follows that.
CODE = re.compile(r"([ \t]*(?:[A-Za-z_]\w*:)?[ \t]*)([^;]*?)([ \t]*(?:;.*)?)$")
NUMBER = re.compile(r"(?<![\w.+\-\[])(0x[0-9A-Fa-f]{1,4}|\d+)(?![\w.\]])")
TURN = re.compile(r"> (\d) ([0-9A-F]{4}) (.*?)(?: ; (\d+) [^;]* ; (.*))?$")
TIME = "time"
NOT_RUN = "no command runs this line"
ALIKE = "nothing that trace shows differs"
INSIDE = "trace differs, each result is the same"
SHOWN = "results differ, and nothing expects them"


class NotDone(Exception):
    """Why no mutant was tried."""


# ---- the mutants


@dataclass
class Instruction:
    """A line of a section that has an instruction: its number, and the line in three parts."""

    number: int
    front: str
    body: str
    rest: str

    def line(self, body: str) -> str:
        """The line with another instruction, or with none."""
        return f"{self.front}{body}{self.rest}"


@dataclass
class Mutant:
    """A changed draft: the numbers of the changed lines, what was changed, the changed lines by their numbers, and whether they are of
    declarations, which no turn is of."""

    numbers: List[int]
    what: str
    changed: Dict[int, str]
    is_declared: bool = False


def sections_of(lines: List[str], wanted: List[str]) -> Iterator[List[Tuple[int, str]]]:
    """The lines of each section, with their numbers; of the wanted ones, if any is named."""
    name: Optional[str] = None
    found: List[Tuple[int, str]] = []
    for number, line in enumerate(lines, 1):
        fields = fields_of(line)
        if name is None and fields[:1] == ["app"] and len(fields) > 1:
            name, found = fields[1], []
        elif name is not None and fields == ["end"]:
            if not wanted or name in wanted:
                yield found
            name = None
        elif name is not None:
            found.append((number, line))


def instructions_of(section: List[Tuple[int, str]]) -> List[Instruction]:
    """The instructions of a section."""
    found = []
    for number, line in section:
        parts = CODE.match(line)
        if parts is not None and parts.group(2) and fields_of(line)[0] not in DECLARATIONS:
            found.append(Instruction(number, *parts.groups()))
    return found


def neighbours(text: str) -> List[str]:
    """A number that is one more, and one that is one less, in its form."""
    value = int(text, 0) if text.lower().startswith("0x") else int(text)
    made = [value + 1, *([value - 1] if value else [])]
    return [f"0x{it:0{len(text) - 2}X}" if text.lower().startswith("0x") else str(it) for it in made]


def constants(number: int, line: str, start: int, end: int, is_declared: bool = False) -> Iterator[Mutant]:
    """The mutants of a line in which a number between two places is one more or one less."""
    for found in NUMBER.finditer(line, start, end):
        for other in neighbours(found.group()):
            yield Mutant([number], f"{found.group()} is {other}", {number: line[:found.start()] + other + line[found.end():]}, is_declared)


def of_instruction(it: Instruction) -> Iterator[Mutant]:
    """The mutants of one instruction."""
    yield Mutant([it.number], "left out", {it.number: it.line("")})
    word, _, operands = it.body.partition(" ")
    condition = re.match(r"[ \t]*([A-Z]{2})(?=[ \t]*(?:,|$))", operands)
    if word in ("BRANCH", "JUMP", "CALL") and condition is not None and condition.group(1) in OPPOSITES:
        was, now = condition.group(1), OPPOSITES[condition.group(1)]
        yield Mutant([it.number], f"{was} is {now}", {it.number: it.line(it.body.replace(was, now, 1))})
    # The number of a primitive is no constant, its arguments are.
    start = it.body.find(",") + 1 if word == "PRIM" else len(word)
    if start:
        yield from constants(it.number, it.line(it.body), len(it.front) + start, len(it.front) + len(it.body))


def of_declaration(number: int, line: str) -> Iterator[Mutant]:
    """The mutants of a declaration: of a number that has a name, and of the last byte of static bytes that are given."""
    code = line.partition(";")[0]
    fields = fields_of(code)
    if fields[:1] == ["CONST"] and len(fields) == 3:
        start = code.rindex(fields[2])
        yield from constants(number, line, start, start + len(fields[2]), True)
    elif fields[:1] == ["STATIC"] and len(fields) == 4 and re.fullmatch("(?:[0-9A-Fa-f]{2})+", fields[3]):
        start, digits = code.rindex(fields[3]), fields[3]
        other = digits[:-2] + f"{(int(digits[-2:], 16) + 1) % 256:02X}"
        yield Mutant([number], f"{digits} is {other}", {number: line[:start] + other + line[start + len(digits):]}, True)


def mutants_of(lines: List[str], wanted: List[str]) -> Iterator[Mutant]:
    """All mutants of a draft, by line."""
    for section in sections_of(lines, wanted):
        code = instructions_of(section)
        guards = [it for it in code if re.match(r"PRIM[ \t]+3\b", it.body)]
        after = dict(zip((it.number for it in code), code[1:]))
        by_number = {it.number: it for it in code}
        for number, line in section:
            it = by_number.get(number)
            if it is None:
                yield from of_declaration(number, line)
                continue
            yield from of_instruction(it)
            other = after.get(number)
            if other is not None and other.body != it.body:
                changed = {number: it.line(other.body), other.number: other.line(it.body)}
                yield Mutant([number, other.number], f"exchanged with line {other.number}", changed)
            if len(guards) > 1 and it is guards[0]:
                yield Mutant([it.number for it in guards], "all protection dropped", {it.number: it.line("") for it in guards})


# ---- a try


def run(name: str, words: List[str], text: str, seconds: Optional[float] = None) -> Tuple[Optional[int], str]:
    """What a program does with a text: its status, None if it takes too long, and its output."""
    try:
        done = subprocess.run([program_path(name), *words], input=text.encode("utf-8", "surrogateescape"), stdout=subprocess.PIPE,
                              stderr=subprocess.DEVNULL, timeout=seconds, check=False)
    except subprocess.TimeoutExpired:
        return None, ""
    return done.returncode, done.stdout.decode("utf-8", "replace")


def status_of(words: List[str], deck: str, seconds: float, no_between: bool) -> Tuple[Optional[int], str]:
    """The status of a job of `mellab`, None if it takes too long, and its last line."""
    status, text = run("mellab", words, deck, seconds)
    if status == 0 and no_between and words == ["sweep"] and " between " in text:
        status = 1
    return status, (text.splitlines() or ["nothing"])[-1]


def turns_of(trace: str, changed: List[int]) -> Tuple[List[Tuple[str, ...]], List[str], bool]:
    """What a trace shows: the turns of other lines than the changed ones, without their places and instructions; the results; and whether
    a changed line ran."""
    turns: List[Tuple[str, ...]] = []
    results, did_run = [], False
    for line in trace.splitlines():
        found = TURN.match(line)
        if found is None:
            results.append(line)
            turns.append((line,))
        elif found.group(4) is not None and int(found.group(4)) in changed:
            did_run = True
        else:
            flags = found.group(3).split(" ")[-2:]
            turns.append((found.group(1), *flags, found.group(4) or found.group(2), found.group(5) or found.group(3)))
    return turns, results, did_run


def reason_of(trace: str, other: str, changed: List[int]) -> str:
    """Why a mutant survived, by the trace of the draft and its own."""
    turns, results, did_run = turns_of(trace, changed)
    other_turns, other_results, _ = turns_of(other, changed)
    if results != other_results:
        return SHOWN
    if turns != other_turns:
        return INSIDE
    return ALIKE if did_run else NOT_RUN


def tried(path: Path) -> Dict[str, Any]:
    """What came of a mutant's draft: whether it is code, and the job that found it, or the reason that none did."""
    base = json.loads((path.parent / "base.json").read_text(encoding="utf-8"))
    draft = path.read_text(encoding="utf-8", errors="surrogateescape")
    status, deck = run("meldesk", ["deck"], draft)
    if status != 0 or deck == base["deck"] or run("meldesk", ["list"], draft)[0] != 0:
        return {"is_code": False}
    for words, wanted in base["jobs"]:
        status, _ = status_of(words, deck, base["seconds"], base["no_between"])
        if status != wanted:
            return {"is_code": True, "found": words[0] if status is not None else TIME}
    about = json.loads(path.with_suffix(".json").read_text(encoding="utf-8"))
    reason = reason_of(base["trace"], run("meldesk", ["trace"], played(draft))[1], about["numbers"])
    return {"is_code": True, "found": None, "reason": ALIKE if reason == NOT_RUN and about["is_declared"] else reason}


def try_and_keep(path: Path) -> None:
    """Tries a mutant and writes what came of it beside its draft."""
    path.with_suffix(".verdict").write_text(json.dumps(tried(path)), encoding="utf-8")


# ---- the run


def played(text: str) -> str:
    """A draft, and behind it each move of its rules once, so that a trace shows what they run."""
    moves = [fields_of(line) for line in lines_of(text)]
    return f"{text.rstrip()}\n" + "".join(f"{' '.join(it[2:])}\n" for it in moves if it[:2] == ["#@", "move"])


def is_asked(job: str, deck: str) -> bool:
    """Whether a deck asks something of a job: an exploration has rules and no application, a proof has one."""
    has_rules, has_application = (re.search(rf"^[ \t]*#@[ \t]+{word}[ \t]", deck, re.MULTILINE) is not None for word in ("on", "app"))
    return {"explore": has_rules and not has_application, "prove": has_application}.get(job, True)


def jobs_of(deck: str, given: argparse.Namespace) -> Iterator[Tuple[List[str], int]]:
    """The jobs that the deck of the draft passes, with their statuses; the others are named on the standard error."""
    for words in (["expect"], ["sweep"], ["explore", str(given.explore)], ["prove"]):
        status, last = status_of(words, deck, given.seconds, given.no_between)
        if status in (0, 6) and is_asked(words[0], deck):
            yield words, status
        elif status != 2 and is_asked(words[0], deck):
            print(f"mutate.py: {words[0]} is left out, since the draft does not pass it: {last}", file=sys.stderr)


def prepared(given: argparse.Namespace, room: Path) -> List[Path]:
    """Writes the mutants and what the draft itself does to a folder, and gives the drafts."""
    text = read(given.source)
    lines = lines_of(text)
    status, deck = run("meldesk", ["deck"], text)
    listed, refusal = run("meldesk", ["list"], text)
    if status or listed:
        raise NotDone(f"{given.source} is refused: {refusal.strip() or 'run meldesk list'}")
    jobs = list(jobs_of(deck, given))
    if not jobs:
        raise NotDone(f"{given.source} has nothing that tests it: no expectation that holds, no rule, no sweep")
    base = {"deck": deck, "jobs": jobs, "trace": run("meldesk", ["trace"], played(text))[1], "seconds": given.seconds,
            "no_between": given.no_between}
    (room / "base.json").write_text(json.dumps(base), encoding="utf-8")
    found = []
    for place, it in enumerate(mutants_of(lines, given.section), 1):
        path = room / f"{place:05}.draft"
        changed = [it.changed.get(number, line) for number, line in enumerate(lines, 1)]
        path.write_text("".join(f"{line}\n" for line in changed), encoding="utf-8", newline="\n")
        about = {"line": it.numbers[0], "numbers": it.numbers, "text": lines[it.numbers[0] - 1].partition(";")[0].strip(), "what": it.what,
                 "is_declared": it.is_declared}
        path.with_suffix(".json").write_text(json.dumps(about), encoding="utf-8")
        found.append(path)
    if not found:
        raise NotDone(f"{given.source} has no instruction in a section")
    return found


def try_all(paths: List[Path], jobs: int) -> None:
    """Tries all mutants, by GNU parallel or by threads."""
    parallel = shutil.which("parallel")
    if parallel is None or "GNU" not in subprocess.run([parallel, "--version"], capture_output=True, text=True, check=False).stdout:
        with concurrent.futures.ThreadPoolExecutor(jobs) as pool:
            list(pool.map(try_and_keep, paths))
        return
    words = [parallel, "--will-cite", "--jobs", str(jobs), "--joblog", str(paths[0].parent / "log"), "--max-args", "4",
             sys.executable, __file__, "--try"]
    done = subprocess.run(words, input="".join(f"{path}\n" for path in paths), text=True, check=False)
    if done.returncode:
        raise NotDone(f"parallel ended with {done.returncode}")


def rows_of(paths: List[Path]) -> Iterator[Dict[str, Any]]:
    """What is known of each mutant that is code."""
    for path in paths:
        verdict = json.loads(path.with_suffix(".verdict").read_text(encoding="utf-8"))
        if verdict.pop("is_code"):
            yield {**json.loads(path.with_suffix(".json").read_text(encoding="utf-8")), "draft": path.name, **verdict}


def show(rows: List[Dict[str, Any]], count: int, every: bool) -> None:
    """Prints the sums, and the survivors by line."""
    found = [it["found"] for it in rows if it["found"] is not None]
    by_job = ", ".join(f"{job} {found.count(job)}" for job in dict.fromkeys(found))
    print(f"{len(rows)} mutants, {len(found)} found{f' ({by_job})' if found else ''}, {len(rows) - len(found)} survive; "
          f"{count - len(rows)} more are no other code")
    last = None
    for it in rows:
        if it["found"] is None or every:
            if it["line"] != last:
                print(f"line {it['line']}: {it['text']}")
            last = it["line"]
            print(f"    {it['what']}: {it['reason'] if it['found'] is None else 'found by ' + it['found']}")


def mutate(given: argparse.Namespace) -> int:
    """Makes the mutants, tries them, and shows which survive."""
    with tempfile.TemporaryDirectory(prefix="melcard-mutants-") as folder:
        room = Path(given.into, "mutants") if given.into else Path(folder)
        if given.into and room.exists():
            raise NotDone(f"{room} is there already")
        room.mkdir(parents=True, exist_ok=True)
        paths = prepared(given, room)
        try_all(paths, given.jobs)
        rows = list(rows_of(paths))
    if given.into:
        kept = "".join(json.dumps(it) + "\n" for it in rows)
        Path(given.into, f"{Path(given.source).stem}.mutants").write_text(kept, encoding="utf-8")
    end_with_reader()
    show(rows, len(paths), given.every)
    return 1 if any(it["found"] is None for it in rows) else 0


def main() -> int:
    if sys.argv[1:2] == ["--try"]:
        for path in sys.argv[2:]:
            try_and_keep(Path(path))
        return 0
    words = argparse.ArgumentParser(description="Changes the code of a draft in one place at a time, and shows which changes its tests do not find.")
    words.add_argument("source", metavar="DRAFT", help="the draft, or a deck")
    words.add_argument("--into", metavar="FOLDER", help="keep the mutants, and what came of them, in this folder of a campaign")
    words.add_argument("--jobs", type=int, default=os.cpu_count() or 1, help="how many at a time (one for each processor)")
    words.add_argument("--explore", metavar="N", type=int, default=40, help="the depth of explorations (40)")
    words.add_argument("--seconds", metavar="S", type=float, default=60, help="the time of one job (60)")
    words.add_argument("--section", action="append", default=[], help="change this section alone; may be given again")
    words.add_argument("--no-between", action="store_true", help="a swept line that is between is found too")
    words.add_argument("--every", action="store_true", help="write the mutants that were found too")
    given = words.parse_args()
    if given.jobs < 1 or given.explore < 1 or not given.seconds > 0:
        words.error("--jobs and --explore are 1 at least, and --seconds is more than 0")
    try:
        return mutate(given)
    except (NotDone, OSError) as why:
        print(f"mutate.py: {why}", file=sys.stderr)
        return 2


if __name__ == "__main__":
    sys.exit(main())
