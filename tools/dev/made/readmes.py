"""Makes the table of crates in docs/PROOFS.md from the titles of their READMEs, and tests the names that pages use.

    tools/dev/make readmes           writes the table anew, between the lines <!-- made by tools/dev/make readmes --> and <!-- end -->
    tools/dev/make --check readmes   writes nothing, and ends with 1 if the table is not up to date or a page is at fault

Each crate of crates.txt has a README: a title `# NAME: WHAT`, what it is for, and `## What is proved`, of lines of at most 600 characters.
In each README, a name in backticks that looks like a function, a law or a definition (`with_underscores`, `CamelCase`, `Type::function`)
is one of the crate's `src/` or `specs/`, of another crate as `other_crate::name`, or a word of texts that the programs read or write;
a path is one of the crate or of the repository. In all pages the names of `some_crate::name`, and of `name` in `path`, are there.

It needs Python 3.9.
"""
import re
import sys
from pathlib import Path

TOP = Path(__file__).resolve().parent.parent.parent.parent
CRATES = TOP / "crates"
PAGE = TOP / "docs" / "PROOFS.md"
MARK, END = "<!-- made by tools/dev/make readmes -->", "<!-- end -->"
MOST = 600  # characters of a line of what is proved
NAME = re.compile(r"[A-Za-z]\w*(?:::[A-Za-z]\w*)*")
PATH = re.compile(r"[\w.*-]+(?:/[\w.*-]+)+/?")
SPAN = re.compile(r"`([^`]+)`")
IN_PATH = re.compile(r"`(\w+)`,? in `(crates/[\w/]+\.(?:antt|rt))`")
# What src/ declares: items and clauses, the fields and variants of types, and what a library passes on.
ITEM = re.compile(r"\b(?:fn|struct|enum|trait|type|const|macro_rules!|ghost|ensures|requires) (\w+)")
TYPE = re.compile(r"^(?:pub(?:\([a-z]+\))? )?(?:struct|enum) [^;{]*\{(.*?)^\}", re.M | re.S)
MEMBER = re.compile(r"^    (?:pub(?:\([a-z]+\))? )?(\w+)", re.M)
PASSED = re.compile(r"^pub use ([^;]+);", re.M)
# What specs/ declares: definitions, the fields of records and the cases of types.
SPECIFIED = re.compile(r"^(?: *(?:abbrev|unfoldable|opaque|record|data|enum|pub) +|  (?=[A-Z]))*([A-Za-z]\w*)(?: [^=\n]*)?:(?: |$)", re.M)
STANDARD = {"None", "Some", "Ok", "Err"}
TEXT = re.compile(r'"((?:[^"\\]|\\.)*)"')


def groups():
    """The headings of crates.txt, each with the names of its crates."""
    found = []
    for line in (TOP / "crates.txt").read_text(encoding="utf-8").splitlines():
        if line.startswith("#"):
            found.append((line[1:].strip(), []))
        elif ":" in line:
            found[-1][1].append(line.split(":")[0].strip())
    return found


def texts(crate, folder, ending):
    """The texts of the files of a folder of a crate."""
    return [path.read_text(encoding="utf-8") for path in sorted((CRATES / crate / folder).rglob(f"*.{ending}"))]


def names_of(text, ending):
    """The names that a file declares."""
    if ending == "antt":
        return set(SPECIFIED.findall(text))
    members = "".join(TYPE.findall(text))
    return {*ITEM.findall(text), *MEMBER.findall(members), *re.findall(r"\w+", " ".join(PASSED.findall(text)))}


def names(crate):
    """The names that a crate declares, and those of its files of definitions and proofs."""
    found = {path.stem for folder in ("specs", "proofs") for path in (CRATES / crate / folder).rglob("*.antt")} | STANDARD
    return found.union(*(names_of(text, ending) for folder, ending in (("src", "rt"), ("specs", "antt")) for text in texts(crate, folder, ending)))


def words_of_texts(crates):
    """The words of the texts that definitions and programs have: statements, results, jobs, keys."""
    return {word for crate in crates for folder, ending in (("src", "rt"), ("specs", "antt")) for text in texts(crate, folder, ending)
            for said in TEXT.findall(text) for word in re.findall(r"\w+", said)}


def is_there(name, crate, declared):
    """Whether a name is declared by its crate, or by the one that it begins with."""
    parts = name.split("::")
    if parts[0] in declared:
        crate, parts = parts[0], parts[1:]
    return all(part in declared[crate] for part in parts)


def is_path(span, crate):
    """Whether a path is one of the crate or of the repository; the ending of a file of proofs may be left out."""
    return any(next(root.glob(span.rstrip("/") + ending), None) is not None for root in (CRATES / crate, TOP) for ending in ("", ".antt", ".rt"))


def without_code(text):
    """A page without its fenced blocks."""
    return re.sub(r"^```.*?^```$", "", text, flags=re.M | re.S)


def title(crate):
    """What the title of a crate's README says that it is, or None."""
    path = CRATES / crate / "README.md"
    match = re.match(rf"# {crate}: (.+)\n", path.read_text(encoding="utf-8")) if path.is_file() else None
    return match and match.group(1)


def faults_of(crate, declared, words):
    """What is wrong with the README of a crate."""
    if title(crate) is None:
        return [f"no README with the title `# {crate}: ..`"]
    text = without_code((CRATES / crate / "README.md").read_text(encoding="utf-8"))
    found = [] if "\n## What is proved\n" in text else ["no `## What is proved`"]
    found += [f"a line of {len(line)} characters: {line[:50]}.." for line in text.split("\n## What is proved\n")[-1].splitlines() if len(line) > MOST]
    for span in SPAN.findall(text):
        if PATH.fullmatch(span):
            found += [] if is_path(span, crate) else [f"no file `{span}`"]
        elif NAME.fullmatch(span) and span not in words and not is_there(span, crate, declared):
            found.append(f"no `{span}` in this crate")
    return found


def page_faults(path, declared):
    """The names of other crates, and of files, that a page has and that are not there."""
    text = without_code(path.read_text(encoding="utf-8"))
    found = [f"no `{span}`" for span in SPAN.findall(text)
             if NAME.fullmatch(span) and span.split("::")[0] in declared and not is_there(span, span.split("::")[0], declared)]
    for name, file in IN_PATH.findall(text):
        source = TOP / file
        if not source.is_file() or name not in names_of(source.read_text(encoding="utf-8"), source.suffix[1:]):
            found.append(f"no `{name}` in `{file}`")
    return found


def table():
    """The crates with what they are, in the groups and the order of crates.txt."""
    parts = []
    for heading, crates in groups():
        rows = "".join(f"| [{crate}](../crates/{crate}/README.md) | {title(crate) or ''} |\n" for crate in crates)
        parts.append(f"{heading}\n\n| Crate | What it is |\n|---|---|\n{rows}")
    return "\n".join(parts)


def main(arguments):
    text = PAGE.read_text(encoding="utf-8")
    before, rest = text.split(MARK)
    whole = f"{before}{MARK}\n\n{table()}\n{END}{rest.split(END)[1]}"
    if arguments != ["--check"]:
        PAGE.write_text(whole, encoding="utf-8")
        return 0
    crates = [crate for _, members in groups() for crate in members]
    declared, words = {crate: names(crate) for crate in crates}, words_of_texts(crates)
    found = [f"crates/{crate}/README.md: {fault}" for crate in crates for fault in faults_of(crate, declared, words)]
    pages = [TOP / "README.md", *sorted((TOP / "docs").glob("*.md")), *sorted(CRATES.glob("*/README.md"))]
    found += [f"{page.relative_to(TOP)}: {fault}" for page in pages for fault in page_faults(page, declared)]
    if whole != text:
        found.append("docs/PROOFS.md is not up to date: run tools/dev/make readmes")
    print("\n".join(dict.fromkeys(found)) or "every README names what is there")
    return 1 if found else 0
