"""`mel`, one command for who writes applications: its words, and where each of them is done."""

from __future__ import annotations

import argparse
import importlib
import os
import subprocess
import sys
import tempfile
from pathlib import Path
from typing import Callable, Dict, List, Optional, Tuple

import sources
from sources import HERE, NotRead

PROGRAMS = ("melcard", "meldesk", "mellab", "melreader")
# Tools that have words of their own: the module of each, and what it does.
TOOLS: Dict[str, Tuple[str, str]] = {
    "film": ("film", "a page of one command to go through in a browser"),
    "cost": ("cost", "the instructions and device writes of each command"),
    "tear": ("tear", "what a power cut in one write of a line does"),
    "mutate": ("mutate", "changes of the code that no test finds"),
    "scan": ("scan", "which commands an application answers at all"),
    "reader": ("vpcd", "the card in a PC/SC reader, for your own terminal program"),
    "conform": ("conform", "compares a card in a reader with this one"),
    "split-deck": ("split_deck", "divides a session that is too long for a deck"),
    "report": ("report", "a page of a campaign"),
    "junit": ("junit", "JUnit XML of what mellab wrote"),
    "sweep-svg": ("sweep_svg", "a picture of a sweep"),
    "prove-html": ("prove_html", "a page of what mellab prove wrote"),
    "prove-moves": ("prove_moves", "a deck with moves that lead to what is not proved"),
    "outline": ("outline", "the skeleton of a proof by hand"),
    "watch": ("watch", "runs a command beside a line of progress")}
READS_C = ("film",)  # these read a file in C themselves
ADAPTER = "debug"  # without a draft it is the adapter that editors start


def commands() -> Dict[str, Tuple[str, Callable[[argparse.ArgumentParser], None], Callable[[argparse.Namespace], int]]]:
    """Returns the commands of `mel` itself: what each does, its words, and its function."""
    import console
    import faults
    import new
    import playing
    import rules
    import testing

    return {"new": ("a folder with an application that is tested and proved, to begin with", new.add_words, new.main),
            "check": ("what is wrong with a draft and its rules, for editors", faults.add_words, faults.main),
            "test": ("tries a draft by all jobs: results, cuts, explorations, proofs, coverage, mutants", testing.add_words, testing.main),
            "play": ("the result of each command", playing.add_play, playing.play),
            "debug": ("goes through a play, forward and back; without DRAFT the adapter for editors", console.add_words, console.main),
            "prove": ("whether the rules hold in every play of every deck", playing.add_prove, playing.prove),
            "rules": ("rules for three tries, only after, never falls, written whole", rules.add_words, rules.main)}


def parser() -> argparse.ArgumentParser:
    """Returns the parser of all words."""
    words = argparse.ArgumentParser(prog="mel", description="One command for who writes applications for melcard. `mel COMMAND --help` has the "
                                    "words of each; a DRAFT is a draft, a deck, or a file in C.")
    words.add_argument("--version", action="store_true", help="write the version, and where the programs are")
    each = words.add_subparsers(dest="command", metavar="COMMAND")
    for name, (said, add_words, _) in commands().items():
        add_words(each.add_parser(name, help=said, description=f"{said[:1].upper()}{said[1:]}."))
    for name, (_, said) in TOOLS.items():
        each.add_parser(name, help=said, add_help=False).add_argument("words", nargs=argparse.REMAINDER)
    return words


# ---- tools with words of their own


def run_tool(name: str, words: List[str]) -> int:
    """Runs a tool as if it was called by itself; a file in C among its words is compiled first."""
    with tempfile.TemporaryDirectory(prefix="melcard-c-") as folder:
        sys.argv = [f"mel {name}", *(compilable(word) if name in READS_C else drafted(word, folder) for word in words)]
        module = importlib.import_module(TOOLS[name][0])
        try:
            status = module.main(sys.argv[1:]) if name == "watch" else module.main()
        except SystemExit as end:
            if isinstance(end.code, str):
                print(end.code, file=sys.stderr)
            return end.code if isinstance(end.code, int) else 0 if end.code is None else 1
    return status or 0


def compilable(word: str) -> str:
    """Returns a word as it is; of a file in C, if there is a compiler."""
    if word.endswith(".c") and os.path.isfile(word):
        sources.melc_for(Path(word))
    return word


def drafted(word: str, folder: str) -> str:
    """Returns the draft of a word that is a file in C, and any other word as it is."""
    if not word.endswith(".c") or not os.path.isfile(word):
        return word
    path = Path(folder, f"{Path(word).stem}.draft")
    path.write_bytes(sources.compiled(Path(word)).draft)
    return str(path)


# ---- completion


def complete(words: List[str]) -> Optional[int]:
    """Completes words for a shell that asks for it; returns None if none does. Without argcomplete nothing is completed."""
    if "_ARGCOMPLETE" not in os.environ:
        return None
    try:
        import argcomplete
    except ImportError:
        return 1
    given = os.environ.get("COMP_LINE", "")[:int(os.environ.get("COMP_POINT", "0"))].split(" ")
    if len(given) > 2 and given[1] in TOOLS:
        # The tool's own parser is met where it parses. To it, its name is the first word.
        os.environ["_ARGCOMPLETE"] = "2"
        setattr(argparse.ArgumentParser, "parse_args", lambda it, *_, **__: argcomplete.autocomplete(it))
        run_tool(given[1], [])
        return 1
    argcomplete.autocomplete(parser())
    return 1


# ---- the version


def version() -> str:
    """Returns the version: what the installation has noted, or of a checkout its last commit."""
    noted = HERE / "VERSION"
    if noted.is_file():
        return noted.read_text(encoding="utf-8").strip()
    try:
        done = subprocess.run(["git", "-C", str(HERE), "log", "-1", "--format=0~%cd.%h", "--date=format:%Y%m%d%H%M"], stdout=subprocess.PIPE,
                              stderr=subprocess.DEVNULL, text=True, check=False)
    except OSError:
        return "unknown"
    return done.stdout.strip() or "unknown"


def write_version() -> int:
    """Writes the version, and of each program where it is and whether it is proved; returns 1 if one is not there."""
    from card import program_path
    from labtexts import end_with_reader

    end_with_reader()
    print(f"mel {version()}")
    status = 0
    for name in PROGRAMS:
        try:
            path = program_path(name)
            is_proved = b"unproved: made by" not in Path(path).read_bytes()
            print(f"{name} {path}{'' if is_proved else ' (UNPROVED)'}")
        except FileNotFoundError as error:
            print(f"mel: {error}", file=sys.stderr)
            status = 1
    main, why = sources.melc_main()
    print("melc is there, for applications in C" if main is not None else f"no application in C can be compiled: {why}")
    return status


def main(words: List[str]) -> int:
    """Runs `mel`; returns its status: 2 for wrong words and for what cannot be read, 130 after Ctrl-C."""
    completed = complete(words)
    if completed is not None:
        return completed
    try:
        if words[:1] and words[0] in TOOLS:
            return run_tool(words[0], words[1:])
        all_words = parser()
        given = all_words.parse_args(words)
        if given.version:
            return write_version()
        if given.command is None:
            all_words.print_help()
            return 2
        return commands()[given.command][2](given)
    except NotRead as why:
        print(f"mel {words[0]}: {why}", file=sys.stderr)
        return 2
    except BrokenPipeError:
        # Whoever reads the output has ended. What is left of it cannot be written either.
        sys.stderr.close()
        return 0
    except OSError as error:
        print(f"mel: {error.filename}: {error.strerror}" if error.filename else f"mel: {error}", file=sys.stderr)
        return 2
    except KeyboardInterrupt:
        return 130
