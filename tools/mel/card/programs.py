"""Where the programs are."""

from __future__ import annotations

import os
import pathlib
import shutil

TOP = pathlib.Path(__file__).resolve().parent.parent.parent.parent


def program_path(name: str = "melreader") -> str:
    """A program: what the environment names (`MELREADER`), else what the repository built, by the gate or by tools/build, or what was
    installed with this package, else what is on the path.

    # Errors

    FileNotFoundError, if there is none.
    """
    built = [TOP / "crates" / name / "out" / name, TOP / "build" / "bin" / name, *([TOP.parent / "bin" / name] if TOP.name == "share" else [])]
    named = os.environ.get(name.upper()) or next((os.fspath(it) for it in built if it.is_file()), None) or shutil.which(name)
    if named is None:
        raise FileNotFoundError(f"there is no {name}: build it by tools/build, or name it by {name.upper()}")
    return named
