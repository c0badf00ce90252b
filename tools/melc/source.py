"""Preprocess and parse: takes the path of a file in C, and returns its tree of pycparser, after `cpp` has run over it.

The folder `include` has what a file may include besides its own files.
"""

from __future__ import annotations

import os
import re
import subprocess
from dataclasses import dataclass, field
from pathlib import Path
from typing import Dict, List

from pycparser import c_ast, c_parser

try:
    from pycparser.c_parser import ParseError
except ImportError:  # pragma: no cover
    from pycparser.plyparser import ParseError

from .faults import At, Faults

INCLUDE = Path(__file__).resolve().parent / "include"
MESSAGE = re.compile(r"(.*?):(\d+):(\d+): (fatal error|error|warning): (.*)$")
PARSED = re.compile(r"(.*?):(\d+)(?::(\d+))?:? *(.*)$", re.DOTALL)


class NotRead(Exception):
    """Why a file cannot be read."""


@dataclass
class Source:
    """A file in C: its path as it was given, its declarations, and the lines of it and of what it includes."""

    path: str
    declarations: List[c_ast.Node] = field(default_factory=list)
    lines: Dict[str, List[str]] = field(default_factory=dict)

    def line(self, at: At) -> str:
        """Returns the text of a line, without blanks at its ends."""
        if at.file not in self.lines:
            try:
                with open(at.file, encoding="utf-8", errors="surrogateescape") as file:
                    self.lines[at.file] = file.read().splitlines()
            except OSError:
                self.lines[at.file] = []
        found = self.lines[at.file]
        return " ".join(found[at.line - 1].split()) if 0 < at.line <= len(found) else ""


def is_own(at: At) -> bool:
    """Whether a place is in a header of the compiler."""
    return Path(at.file).parent == INCLUDE


def read(path: str, faults: Faults) -> Source:
    """Returns a file after `cpp` and the parser; what these refuse is in `faults`.

    # Errors

    NotRead, if the file cannot be read, or there is no `cpp`.
    """
    source = Source(path)
    try:
        with open(path, "rb"):
            pass
        done = subprocess.run(["cpp", "-nostdinc", "-undef", f"-I{INCLUDE}", "-D__MELC__", "-fno-diagnostics-show-caret",
                               "-fdiagnostics-color=never", path], stdin=subprocess.DEVNULL, stdout=subprocess.PIPE, stderr=subprocess.PIPE,
                              env={**os.environ, "LC_ALL": "C"}, check=False)
    except OSError as why:
        raise NotRead(f"{why.filename or path}: {why.strerror}") from None
    for line in done.stderr.decode(errors="replace").splitlines():
        if found := MESSAGE.match(line):
            at = At(found[1], int(found[2]), int(found[3]))
            (faults.warning if found[4] == "warning" else faults.error)(at, found[5])
    if done.returncode and not faults.is_refused:
        faults.error(At(path, 1), "cpp refuses the file")
    if faults.is_refused:
        return source
    try:
        tree = c_parser.CParser().parse(done.stdout.decode("utf-8", "surrogateescape"), path)
        source.declarations = tree.ext
    except ParseError as why:
        faults.error(*_placed(str(why), path))
    except RecursionError:
        faults.error(At(path, 1), "an expression or a statement is nested too deeply")
    return source


def _placed(text: str, path: str) -> "tuple[At, str]":
    """Returns the place and the text of what the parser refused."""
    found = PARSED.match(text)
    if found is None:
        return At(path, 1), f"this is no C: {text}"
    said = found[4].strip()
    said = f"no C stands here, at `{said[8:].strip()}`" if said.startswith("before: ") else f"no C stands here: {said}" if said else "no C stands here"
    return At(found[1] or path, int(found[2]), int(found[3] or 1)), said
