"""Makes the decks of examples/ that have a draft, by `meldesk deck`, and two files of copies that tests of mellab run: of the decks with
expectations, crates/mellab/src/examples.rt, and of those with a stored report, crates/mellab/src/reports.rt.

    tools/dev/make [--check] [--programs FOLDER] examples

A deck without an expectation is left out of the first; a report is a sweep or an exploration, and one that takes `rt try` more than its
minute, as that of pin.deck, is left out of the second: tools/dev/check_pages compares it. The program is taken from FOLDER, or as `rt ci` left it in crates/meldesk/out or
tools/build in build/bin; if it is not built, the decks stay as they are, and the script says so. With --check nothing is written, and the
script ends with 1 if a file is not up to date.
"""
import argparse
import re
import subprocess
import sys
from pathlib import Path

from card import program_path

TOP = Path(__file__).resolve().parent.parent.parent.parent
FILE = TOP / "crates/mellab/src/examples.rt"
REPORTS = TOP / "crates/mellab/src/reports.rt"
# What a report is made by: its ending, and the words of mellab.
JOBS = ((".explore.txt", ("explore", "40")), (".sweep.txt", ("sweep",)))
SLOW = {"pin.explore.txt"}
EXPECTATION = re.compile(r"^[ \t]*#>(?=[ \t]|$)", re.MULTILINE)

HEAD = """// The decks of `examples/` with expectations, and the reports of them.

/// A deck, and the output of `expect` for it.
pub struct Example {
    pub name: &'static str,
    pub deck: &'static str,
    pub reported: &'static str,
}

/// The decks.
pub const EXAMPLES: [Example; %d] = [
"""

REPORTS_HEAD = """// The decks of `examples/` with a report, and the words of the job that it is of.

/// A deck, the words of a job, and its output.
pub struct Report {
    pub name: &'static str,
    pub words: &'static [&'static str],
    pub deck: &'static str,
    pub text: &'static str,
}

/// The reports.
pub const REPORTS: &[Report] = &[
"""


def example(path, deck):
    """The lines of a deck; `deck` has no quotation mark, since none stands in a deck."""
    told = f"expected {len(EXPECTATION.findall(deck))} failed 0\\n"
    return f'    Example {{\n        name: "{path.stem}",\n        deck: r"{deck}",\n        reported: "{told}",\n    }},\n'


def decks_of_drafts():
    """The decks of the drafts of examples/: the file of each, and its text."""
    try:
        found = program_path("meldesk")
    except FileNotFoundError:
        print("tools/dev/make examples: meldesk is not built, and decks are taken as they are", file=sys.stderr)
        return
    for draft in sorted(TOP.glob("examples/*.draft")):
        with open(draft, "rb") as text:
            done = subprocess.run([found, "deck"], stdin=text, stdout=subprocess.PIPE, check=False)
        if done.returncode:
            sys.exit(f"tools/dev/make examples: {draft.relative_to(TOP)}: {done.stdout.decode().strip()}")
        yield draft.with_suffix(".deck"), done.stdout.decode()


def copies(made):
    """The file of copies, of the decks as they are or as they are made."""
    decks = [(path, made.get(path) or path.read_text(encoding="utf-8")) for path in sorted({*TOP.glob("examples/*.deck"), *made})]
    decks = [(path, deck) for path, deck in decks if EXPECTATION.search(deck)]
    return HEAD % len(decks) + "".join(example(*it) for it in decks) + "];\n"


def reports(made):
    """The file of reports, of the decks as they are or as they are made; `text` has no quotation mark, since none stands in a report."""
    parts = [REPORTS_HEAD]
    for ending, words in JOBS:
        for path in sorted(it for it in TOP.glob(f"examples/*{ending}") if it.name not in SLOW):
            deck = path.with_name(path.name[: -len(ending)] + ".deck")
            text = made.get(deck) or deck.read_text(encoding="utf-8")
            said = ", ".join(f'"{it}"' for it in words)
            parts.append(f'    Report {{\n        name: "{path.name}",\n        words: &[{said}],\n        deck: r"{text}",\n'
                         f'        text: r"{path.read_text(encoding="utf-8")}",\n    }},\n')
    return "".join(parts) + "];\n"


def main(given_words):
    words = argparse.ArgumentParser(description="Makes the decks of the drafts of examples/, and the copies of decks and reports that tests run.")
    words.add_argument("--check", action="store_true", help="write nothing, and end with 1 if a file is not up to date")
    given = words.parse_args(given_words)
    made = dict(decks_of_drafts())
    files = {**made, FILE: copies(made), REPORTS: reports(made)}
    stale = [path for path, text in files.items() if not path.exists() or path.read_text(encoding="utf-8") != text]
    for path in stale:
        if given.check:
            print(f"{path.relative_to(TOP)} is not up to date: run tools/dev/make examples")
        else:
            path.write_text(files[path], encoding="utf-8")
    return 1 if given.check and stale else 0
