"""Makes build/DEFINITIONS.md of docs/DEFINITIONS.md and the comments of the definitions.

    tools/dev/make definitions           writes the page and below it the tables
    tools/dev/make --check definitions   writes nothing, names definitions without a comment, and ends with 1 if there is one

A definition is a `record`, a `data`, an `abbrev`, an `unfoldable` or an `enum` that is `pub` in a file of some crate's specs/. Its
meaning is the comment right above it. The page has the files of the crates of definitions, layer by layer; what one crate owns is read
in its own specs/, and only tested for a comment here. It needs Python 3.9.
"""
import re
import sys
from pathlib import Path

TOP = Path(__file__).resolve().parent.parent.parent.parent
PAGE = TOP / "docs" / "DEFINITIONS.md"
MADE = TOP / "build" / "DEFINITIONS.md"
LAYERS = (
    ("Bytes, device and image", "model_device"),
    ("The machine", "model_machine"),
    ("Texts", "model_text"),
    ("The shape of the stack", "model_stack"),
    ("The card", "model_card"),
    ("Decks, plays and their laws", "model_play"),
)
DEFINITION = re.compile(r"\s*(?:record pub|pub record|data pub|pub data|abbrev pub|pub abbrev|unfoldable pub|pub unfoldable|enum pub|pub enum) (\S+)")


def sentence(lines):
    """A comment as one line for a table's cell."""
    text = " ".join(line.strip()[2:].strip() for line in lines)
    return text.replace("|", "\\|")


def read(path):
    """The head of a file of definitions, and the name and comment of each definition in it."""
    head, found, comment, begun = [], [], [], False
    for line in path.read_text(encoding="utf-8").splitlines():
        stripped = line.strip()
        if stripped.startswith("--"):
            if not begun:
                head.append(line)
            elif not stripped.startswith("-- ----"):
                comment.append(line)
            continue
        begun = True
        match = DEFINITION.match(line)
        if match:
            found.append((match.group(1), sentence(comment)))
        comment = []
    profile = "This project's profile."
    return sentence(head).replace(" " + profile, "").replace(profile, "").strip(), found


def part(title, path, missing):
    """The part of the page about one file."""
    head, found = read(path)
    if not found:
        return ""
    missing += [f"{path.relative_to(TOP)}: {name}" for name, comment in found if not comment]
    rows = "".join(f"| `{name}` | {comment} |\n" for name, comment in found)
    return f"### `{title}`\n\n{head}\n\n| Name | Meaning |\n|---|---|\n{rows}\n"


def crates():
    """The crates in the order of crates.txt."""
    lines = (TOP / "crates.txt").read_text(encoding="utf-8").splitlines()
    return [line.split(":")[0].strip() for line in lines if ":" in line and not line.startswith("#")]


def files(crate):
    """The files of a crate's definitions, in the order of its specs/Lib.antt, then by name."""
    specs = TOP / "crates" / crate / "specs"
    order = re.findall(r"^pub mod (\w+)$", (specs / "Lib.antt").read_text(encoding="utf-8"), re.M) if specs.exists() else []
    named = [specs / f"{name}.antt" for name in order]
    return named + [path for path in sorted(specs.glob("*.antt")) if path not in named and path.stem != "Lib"]


def page():
    """What the page has below its mark, and the definitions without a comment."""
    missing, parts = [], []
    for title, crate in LAYERS:
        parts.append(f"## {title} (`{crate}`)\n\n")
        parts += [part(path.name, path, missing) for path in files(crate)]
    layers = {crate for _, crate in LAYERS}
    for crate in crates():
        if crate not in layers:
            for path in files(crate):
                part(path.name, path, missing)
    return "".join(parts), missing


def main(words):
    made, missing = page()
    for name in missing:
        print(f"no comment: {name}")
    if words != ["--check"]:
        target = Path(words[0]) if words else MADE
        target.parent.mkdir(exist_ok=True)
        target.write_text(f"{PAGE.read_text(encoding='utf-8').rstrip()}\n\n{made}", encoding="utf-8")
    return 1 if missing else 0


if __name__ == "__main__":
    sys.exit(main(sys.argv[1:]))
