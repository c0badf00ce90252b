"""The program: takes its words, runs the passes one after the other, and returns its status.

    melc FILE.c [-o DRAFT] [-n NAME] [-s]     compiles an application to a draft, or with -s to its section alone
    melc lines DRAFT                          lines of a draft become lines of C, from the standard input to the standard output

The status is 0 if it is done, 1 if the file is refused, 2 for other words, 3 if a file cannot be read, 4 if the output cannot be written.
"""

from __future__ import annotations

import argparse
import os
import re
import sys
from pathlib import Path
from typing import List, NoReturn, Optional, Tuple

from . import lines as filters
from .analysis import analysed
from .faults import Faults
from .layout import laid_out
from .lowering import lowered
from .source import NotRead, read
from .text import draft, section

DONE, REFUSED, WORDS, NOT_READ, NOT_WRITTEN = range(5)
USAGE = "usage: melc FILE.c [-o DRAFT] [-n NAME] [-s] | melc lines DRAFT"
NAME = re.compile(r"[A-Za-z_][A-Za-z0-9_]{0,31}$")
MOST_CODE = 8192


class WrongWords(Exception):
    """Words that are none of the program."""


class Words(argparse.ArgumentParser):
    """A parser of words that raises what is wrong."""

    def error(self, message: str) -> NoReturn:
        raise WrongWords(message)


def compiled(path: str, name: str, is_section: bool) -> Tuple[Faults, Optional[str]]:
    """Returns what is told of a file, and its draft or its section, None if it is refused.

    # Errors

    NotRead, if the file cannot be read.
    """
    faults = Faults()
    source = read(path, faults)
    program = analysed(source, faults) if not faults.is_refused else None
    made = lowered(program, faults, path) if program is not None else None
    if program is None or made is None:
        return faults, None
    code = laid_out(made.blocks)
    size = sum(it.code.size for it in code)
    if size > MOST_CODE:
        faults.error(code[-1].code.at, f"the code has {size} bytes, and an application at most {MOST_CODE}")
        return faults, None
    lines = section(source, program, code, made, name)
    return faults, "".join(f"{it}\n" for it in (lines if is_section else draft(lines, name)))


def compile_words(words: List[str]) -> int:
    """Compiles a file."""
    parser = Words(prog="melc", add_help=False, allow_abbrev=False)
    parser.add_argument("file")
    parser.add_argument("-o", dest="output")
    parser.add_argument("-n", dest="name")
    parser.add_argument("-s", dest="is_section", action="store_true")
    given = parser.parse_args(words)
    if not given.file.endswith(".c"):
        raise WrongWords(f"{given.file} is no file in C: its name ends with .c")
    name = given.name if given.name is not None else Path(given.file).name[:-2]
    if not NAME.match(name):
        raise WrongWords(f"`{name}` is no name of a section: give one by -n")
    try:
        faults, text = compiled(given.file, name, given.is_section)
    except NotRead as why:
        print(f"melc: {why}", file=sys.stderr)
        return NOT_READ
    for line in faults.lines():
        print(os.fsencode(line).decode("utf-8", "replace"), file=sys.stderr)
    if text is None:
        return REFUSED
    return written(os.fsencode(text), given.output)


def written(content: bytes, output: Optional[str]) -> int:
    """Writes the output to a file, which is whole or as it was, or to the standard output."""
    try:
        if output is None:
            sys.stdout.flush()
            if hasattr(sys.stdout, "buffer"):
                sys.stdout.buffer.write(content)
            else:
                sys.stdout.write(content.decode("utf-8", "replace"))
            sys.stdout.flush()
        else:
            with open(output, "wb") as file:
                file.write(content)
    except OSError as why:
        print(f"melc: {output or 'the standard output'}: {why.strerror}", file=sys.stderr)
        return NOT_WRITTEN
    return DONE


def main(words: Optional[List[str]] = None) -> int:
    """Runs the program; returns its status."""
    words = sys.argv[1:] if words is None else words
    try:
        if words == ["--help"]:
            print(f"{USAGE}\n{__doc__.partition(chr(10))[2]}")
            return DONE
        if words[:1] == ["lines"]:
            if len(words) != 2:
                raise WrongWords("lines DRAFT")
            return filters.main(words[1])
        return compile_words(words)
    except WrongWords as why:
        print(f"{USAGE}\nmelc: {why}", file=sys.stderr)
        return WORDS
