"""`mel test`: tries drafts by all jobs, here or on other machines, and writes lines, a page and JUnit XML.

    mel test [DRAFT ..] [--only JOB] [--without JOB] [--depth N] [--jobs N] [--sshlogin HOSTS] [--strict] [--page FILE] [--junit FILE]
             [--watch] [--json]

The status is 0 if nothing failed, 1 if a job failed, and 2 if a draft cannot be read.
"""

from __future__ import annotations

import argparse
import concurrent.futures
import json
import os
import re
import shutil
import subprocess
import sys
import tempfile
import time
import xml.etree.ElementTree as xml
from dataclasses import dataclass
from html import escape
from pathlib import Path
from typing import Dict, Iterator, List, Tuple

import junit
import labtexts
import report
import sources
import terminal
import trials
from sources import NotRead, Source
from trials import FAILED, JOBS, LEFT_OUT, LOOK, PASSED, Done, Options

WORDS = {PASSED: ("passed", "good"), FAILED: ("FAILED", "bad"), LOOK: ("look", "look"), LEFT_OUT: ("left out", "quiet")}
LAB = ("expect", "sweep", "explore", "prove")
PAUSE = 0.5  # seconds between two looks at the files of a draft


@dataclass
class Result:
    """What came of a draft: its name, the file, its deck, its text, its mutants as `mutate.py` keeps them, and its jobs."""

    name: str
    path: str
    deck: str
    draft: str
    mutants: str
    jobs: List[Done]

    @property
    def failed(self) -> List[str]:
        """The jobs that failed."""
        return [it.job for it in self.jobs if it.verdict == FAILED]


def of_json(line: str) -> Result:
    """Returns the results of a draft from their line of JSON."""
    read = json.loads(line)
    return Result(read["name"], read["path"], read["deck"], read["draft"], read["mutants"], [Done(**it) for it in read["jobs"]])


# ---- lines


def line_of(done: Done) -> str:
    """Returns the line of a job."""
    word, kind = WORDS[done.verdict]
    seconds = "" if done.verdict == LEFT_OUT else f"{done.seconds:.1f} s"
    return f"{done.job:<8} {terminal.painted(f'{word:<8}', kind)} {seconds:>7}  {done.said}".rstrip()


def shown_lines(done: Done) -> Iterator[str]:
    """Returns what is shown below the line of a job: not of a sweep's or an exploration's lines that hold."""
    if done.verdict in (FAILED, LOOK):
        yield from (f"    {line}" for line in done.shown[:trials.MOST_LINES])
        if len(done.shown) > trials.MOST_LINES:
            yield f"    and {len(done.shown) - trials.MOST_LINES} more lines"


def told(done: Done) -> None:
    """Writes the lines of a job."""
    print("\n".join([line_of(done), *shown_lines(done)]), flush=True)


def summary(result: Result) -> str:
    """Returns the last line of a draft."""
    seconds = sum(it.seconds for it in result.jobs)
    word = terminal.painted(f"FAILED: {', '.join(result.failed)}", "bad") if result.failed else terminal.painted("passed", "good")
    return f"{result.path}: {word} ({seconds:.1f} s)"


# ---- runs


def strict(done: Done) -> Done:
    """Returns a job with which nothing wants a look: it failed."""
    if done.verdict == LOOK:
        done.verdict = FAILED
    return done


def one(source: Source, given: argparse.Namespace, options: Options, is_told: bool) -> Result:
    """Tries a draft, and writes the line of each job when it is done."""
    def each(done: Done) -> None:
        if given.strict:
            strict(done)
        if is_told:
            told(done)

    found, trial = trials.tried(source, given.names, options, each)
    result = of_json(trials.as_json(source, found, trial))
    if is_told:
        print(summary(result), flush=True)
    return result


def here(read: List[Source], given: argparse.Namespace) -> List[Result]:
    """Tries drafts on this machine: one by one with their lines at once, or several at a time."""
    if len(read) == 1:
        return [one(read[0], given, Options(given.depth, given.jobs, given.seconds), not given.json)]
    found: List[Result] = []
    with concurrent.futures.ThreadPoolExecutor(given.jobs) as pool:
        tasks = [pool.submit(one, it, given, Options(given.depth, 1, given.seconds, False), False) for it in read]
        for task in concurrent.futures.as_completed(tasks):
            found.append(task.result())
            show_done(found[-1], len(found), len(read), given)
    return sorted(found, key=lambda it: it.path)


def show_done(result: Result, count: int, of: int, given: argparse.Namespace) -> None:
    """Writes the lines of a draft that was tried among others."""
    if given.json:
        return
    for done in result.jobs:
        if done.verdict == FAILED or len(given.drafts) == 1:
            told(done)
    print(f"{summary(result)} [{count} of {of}]", flush=True)


def elsewhere(paths: List[Path], given: argparse.Namespace) -> List[Result]:
    """Tries drafts by GNU parallel, on the machines of --sshlogin: each gets the file, and sends a line of JSON.

    # Errors

    NotRead, if parallel is not there, or a machine sends something else.
    """
    parallel = shutil.which("parallel")
    if parallel is None or "GNU" not in subprocess.run([parallel, "--version"], stdout=subprocess.PIPE, text=True, check=False).stdout:
        raise NotRead("--sshlogin needs GNU parallel (Debian: parallel), which is not installed here")
    mel = "mel" if given.remote is None else given.remote
    words = [f"--only {name}" for name in given.names] + (["--strict"] if given.strict else [])
    command = f"{mel} test --json --depth {given.depth} --seconds {given.seconds:g} --jobs 1 {' '.join(words)} {{}}"
    run = [parallel, "--will-cite", "--sshlogin", given.sshlogin, "--jobs", str(given.jobs), "--transferfile", "{}", "--cleanup", command, ":::",
           *map(str, paths)]
    found: List[Result] = []
    with subprocess.Popen(run, stdout=subprocess.PIPE, stdin=subprocess.DEVNULL, text=True) as child:
        assert child.stdout is not None
        for line in child.stdout:
            try:
                found.append(of_json(line))
            except (ValueError, KeyError, TypeError):
                raise NotRead(f"a machine of --sshlogin sent no result of mel: {line.strip()[:100]}") from None
            show_done(found[-1], len(found), len(paths), given)
    if len(found) != len(paths):
        raise NotRead(f"{len(paths) - len(found)} of {len(paths)} drafts have no result from the machines of --sshlogin")
    return sorted(found, key=lambda it: it.path)


# ---- a page, and cases


def campaign(results: List[Result], folder: Path) -> List[labtexts.Job]:
    """Writes the results as a campaign's folder, and returns its jobs."""
    for result in results:
        (folder / f"{result.name}.deck").write_text(result.deck, encoding="utf-8", errors="surrogateescape", newline="")
        (folder / f"{result.name}.draft").write_text(result.draft, encoding="utf-8", errors="surrogateescape", newline="")
        for done in result.jobs:
            if done.job in LAB and done.status is not None:
                (folder / f"{result.name}.{done.job}").write_text(done.text, encoding="utf-8")
                with open(folder / f"{done.job}.verdicts", "a", encoding="utf-8") as file:
                    file.write(f"{done.status} {result.name}.deck\n")
            elif done.job == "cover" and done.status == 0:
                (folder / f"{result.name}.info").write_text(done.text, encoding="utf-8")
        if result.mutants:
            (folder / f"{result.name}.mutants").write_text(result.mutants, encoding="utf-8")
    return labtexts.jobs_of(folder, folder)


def jobs_table(results: List[Result]) -> Iterator[str]:
    """Returns the table of all jobs of a page."""
    kinds = {PASSED: report.GOOD, LOOK: report.LOOK, FAILED: report.BAD, LEFT_OUT: ""}
    yield '<div class="wide"><table><tr><th>draft</th><th>job</th><th>verdict</th><th>seconds</th><th></th></tr>'
    for result in results:
        for done in result.jobs:
            lines = "".join(f"<br><code>{escape(line)}</code>" for line in done.shown[:trials.MOST_LINES] if done.verdict in (FAILED, LOOK))
            yield (f'<tr><td><code>{escape(result.path)}</code></td><td>{done.job}</td><td class="{kinds[done.verdict]}">{WORDS[done.verdict][0]}</td>'
                   f"<td>{done.seconds:.1f}</td><td>{escape(done.said)}{lines}</td></tr>")
    yield "</table></div>"


def page(results: List[Result]) -> str:
    """Returns the page: the table of all jobs, and what a campaign's page has."""
    title = "mel test: " + ", ".join(it.name for it in results)
    with tempfile.TemporaryDirectory(prefix="melcard-page-") as folder:
        text = "\n".join(report.page(title, campaign(results, Path(folder)), Path(folder), "\n".join(jobs_table(results))))
    # The page stands alone, and the record of the coverage is not beside it.
    return re.sub(r'<a href="[^"#]*\.info">(.*?)</a>', r"\1", text) + "\n"


def suites(results: List[Result]) -> Iterator[xml.Element]:
    """Returns the suites of JUnit: of mellab's jobs a case for each line that is tested, of the others one for each line that is shown."""
    for result in results:
        lines = labtexts.lines_of(result.deck)
        for done in result.jobs:
            name = f"{result.name}.{done.job}"
            if done.verdict == LEFT_OUT:
                yield junit.suite(name, [(done.job, "skipped", done.said)])
            elif done.job in LAB:
                cases = list(junit.cases(labtexts.read_text(done.text), lines, done.status, False))
                if done.verdict == FAILED and all(fault not in ("failure", "error") for _, fault, _ in cases):
                    cases.append((done.job, "failure", done.said))
                yield junit.suite(name, cases)
            else:
                fault = "failure" if done.verdict == FAILED else None
                yield junit.suite(name, [(done.job, fault, "\n".join([done.said, *done.shown]).strip())])


def write(results: List[Result], given: argparse.Namespace) -> None:
    """Writes the page and the cases, if they are asked for."""
    if given.page:
        Path(given.page).write_text(page(results), encoding="utf-8", errors="replace")
    if given.junit:
        Path(given.junit).write_text(junit.whole(list(suites(results))), encoding="utf-8", errors="replace")


# ---- the command


def paths_of(given: argparse.Namespace) -> List[Path]:
    """Returns the files to try, as `sources.paths_of`.

    # Errors

    NotRead, if there is none, or two have one name.
    """
    found = sources.paths_of(given.drafts)
    names: Dict[str, Path] = {}
    for path in found:
        if path.stem in names:
            raise NotRead(f"{names[path.stem]} and {path} have one name, and their results could not be told apart")
        names[path.stem] = path
    return found


def tried(given: argparse.Namespace) -> int:
    """Tries the drafts once, and returns the status."""
    paths = paths_of(given)
    results = elsewhere(paths, given) if given.sshlogin else here([sources.read(path) for path in paths], given)
    write(results, given)
    if given.json:
        print("\n".join(json.dumps({**vars(it), "jobs": [vars(done) for done in it.jobs]}) for it in results))
    elif len(results) > 1:
        failed = [it for it in results if it.failed]
        print(f"{len(results)} drafts, {len(failed)} failed")
    return 1 if any(it.failed for it in results) else 0


def stamps(given: argparse.Namespace) -> Tuple[Tuple[str, int, int], ...]:
    """Returns what changes when a file of the drafts does."""
    found = []
    for path in (file for it in paths_of(given) for file in sources.watched(it)):
        try:
            about = path.stat()
            found.append((str(path), about.st_mtime_ns, about.st_size))
        except OSError:
            found.append((str(path), 0, 0))
    return tuple(found)


def watch(given: argparse.Namespace) -> int:
    """Tries the drafts, and again whenever one of their files has changed, until Ctrl-C; returns the last status."""
    status = 0
    try:
        while True:
            seen = stamps(given)
            try:
                status = tried(given)
            except NotRead as why:
                status = 2
                print(f"mel test: {why}", file=sys.stderr)
            print(terminal.painted("waiting for a change; Ctrl-C ends", "quiet"), flush=True)
            while stamps(given) == seen:
                time.sleep(PAUSE)
    except KeyboardInterrupt:
        print()
        return status


def add_words(words: argparse.ArgumentParser) -> None:
    """Adds the words of the command."""
    words.add_argument("drafts", nargs="*", metavar="DRAFT", help="drafts, files in C, or folders of them (the working folder)")
    words.add_argument("--only", action="append", choices=list(JOBS), metavar="JOB", help=f"run this job alone, may be given again: {', '.join(JOBS)}")
    words.add_argument("--without", action="append", default=[], choices=list(JOBS), metavar="JOB", help="leave this job out; may be given again")
    words.add_argument("--depth", type=int, default=40, metavar="N", help="the depth of explorations (40)")
    words.add_argument("--seconds", type=float, default=60, metavar="S", help="the time of one job of one mutant (60)")
    words.add_argument("--jobs", type=int, default=os.cpu_count() or 1, metavar="N", help="how many drafts or mutants at a time (one for each processor)")
    words.add_argument("--sshlogin", metavar="HOSTS", help="run drafts on these machines, by GNU parallel: `8/one,8/two`; `:` is this one")
    words.add_argument("--remote", metavar="COMMAND", help="what `mel` is on those machines (mel)")
    words.add_argument("--strict", action="store_true", help="what wants a look fails too")
    words.add_argument("--page", metavar="FILE", help="write a page of HTML")
    words.add_argument("--junit", metavar="FILE", help="write JUnit XML")
    words.add_argument("--watch", action="store_true", help="run again on each change, until Ctrl-C")
    words.add_argument("--json", action="store_true", help="write a line of JSON for each draft, and no other")


def main(given: argparse.Namespace) -> int:
    """Runs the command."""
    if given.jobs < 1 or not 1 <= given.depth <= 999999 or given.seconds <= 0:
        raise NotRead("--jobs and --depth are 1 at least, a depth has at most 6 digits, and --seconds is above 0")
    given.names = [it for it in JOBS if it in (given.only or JOBS) and it not in given.without]
    if not given.names:
        raise NotRead("no job is left to run")
    return watch(given) if given.watch else tried(given)
