"""`mel new NAME`: a folder with an application that is tested and proved, to be changed into another one."""

from __future__ import annotations

import argparse
import re
from pathlib import Path

import sources
from sources import NotRead

TEMPLATE = sources.HERE / "template"
# Where each file of the template goes; NAME is that of the application.
FILES = {"NAME.draft": "{name}.draft", "README.md": "README.md", "gitlab-ci.yml": ".gitlab-ci.yml", "github.yml": ".github/workflows/test.yml"}
AID = r"(?:[0-9A-Fa-f]{2}){5,16}"
# What is no name: registers and conditions.
TAKEN = {"SB", "ST", "DB", "LB", "DT", "PB", "PT", "EQ", "LT", "LE", "GT", "GE", "NE", "ALL"}


def add_words(words: argparse.ArgumentParser) -> None:
    """Adds the words of the command."""
    words.add_argument("name", metavar="NAME", help="the application: letters, digits and underscores, at most 32")
    words.add_argument("--aid", default="F000000001", help="its AID, 10 to 32 hexadecimal digits (F000000001, which nobody has registered)")
    words.add_argument("--into", metavar="FOLDER", help="the folder to make (NAME)")


def main(given: argparse.Namespace) -> int:
    """Makes the folder.

    # Errors

    NotRead, if the name or the AID is none, or the folder is there and not empty.
    """
    name, folder = given.name, Path(given.into or given.name)
    if not re.fullmatch(r"[A-Za-z_]\w{0,31}", name, re.ASCII) or name in TAKEN:
        raise NotRead(f"{name} is no name of an application: it has letters, digits and underscores, at most 32, and begins with no digit")
    if re.fullmatch(AID, name):
        raise NotRead(f"{name} is no name of an application: it reads as an AID")
    if not re.fullmatch(AID, given.aid):
        raise NotRead(f"{given.aid} is no AID: it has 5 to 16 bytes in hexadecimal")
    try:
        if folder.exists() and (not folder.is_dir() or any(folder.iterdir())):
            raise NotRead(f"{folder} is there already")
        for file, target in FILES.items():
            path = folder / target.format(name=name)
            path.parent.mkdir(parents=True, exist_ok=True)
            text = (TEMPLATE / file).read_text(encoding="utf-8")
            path.write_text(text.replace("@NAME@", name).replace("@AID@", given.aid.upper()), encoding="utf-8")
    except OSError as error:
        raise NotRead(f"{error.filename or folder} cannot be written: {error.strerror}") from None
    print(f"{folder}: an application that is used three times. Next: cd {folder} && mel test")
    return 0
