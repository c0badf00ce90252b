"""Makes the tables of sentences in docs/CAUSES.md from those that `meldesk explain` writes.

    tools/dev/make causes           writes the tables anew, between the lines <!-- made by tools/dev/make causes --> and <!-- end -->
    tools/dev/make --check causes   writes nothing, and ends with 1 if the page is not up to date

The sentences stand in crates/desk_explain/src/sentence.rt, one `say` for each cause: what was expected, and what to do. It needs Python 3.9.
"""
import re
import sys
from pathlib import Path

TOP = Path(__file__).resolve().parent.parent.parent.parent
SOURCE = TOP / "crates" / "desk_explain" / "src" / "sentence.rt"
PAGE = TOP / "docs" / "CAUSES.md"
MARK, END = "<!-- made by tools/dev/make causes -->", "<!-- end -->"
# The functions of the source, in the order of the page, and where their causes are written.
TABLES = (
    ("statement_sentence", "A line between sections, or `app` and `end`"),
    ("declaration_sentence", "A declaration"),
    ("data_sentence", "A `DATA` line"),
    ("instruction_sentence", "A name in an instruction"),
    ("rule_sentence", "A name in a rule"),
    ("asm_sentence", "An instruction"),
    ("unit_sentence", "A `unit` line, or the `end` of a section"),
    ("verdict_sentence", "Code that the stack checker refuses"),
    ("warning_sentence", "What `warning` says"),
)
STRING = r'"((?:[^"\\]|\\.)*)"'
SENTENCE = re.compile(rf"\w+::(\w+) => (?:\{{\s*)?say\(\s*{STRING},\s*{STRING},?\s*\)", re.S)
FUNCTION = re.compile(r"^(?:pub )?fn (\w+)\(.*?^\}", re.M | re.S)


def plain(text):
    """A string of the source as a line of text."""
    return re.sub(r"\\\n\s*", "", text).replace('\\"', '"')


def sentences():
    """The causes of each function with what was expected and what to do."""
    functions = {it.group(1): it.group(0) for it in FUNCTION.finditer(SOURCE.read_text(encoding="utf-8"))}
    return {name: [(cause, plain(expected), plain(advice)) for cause, expected, advice in SENTENCE.findall(functions[name])] for name, _ in TABLES}


def made():
    """The tables of the page."""
    found = sentences()
    parts = []
    for name, title in TABLES:
        rows = "".join(f"| `{cause}` | {expected} | {advice} |\n" for cause, expected, advice in found[name])
        parts.append(f"### {title}\n\n| Cause | Expected | What to do |\n|---|---|---|\n{rows}\n")
    return "".join(parts)


def main(words):
    text = PAGE.read_text(encoding="utf-8")
    front, rest = text.split(MARK)
    whole = f"{front}{MARK}\n\n{made()}{END}{rest.split(END)[1]}"
    if words == ["--check"]:
        if whole != text:
            print("docs/CAUSES.md is not up to date: run tools/dev/make causes")
        return 1 if whole != text else 0
    PAGE.write_text(whole, encoding="utf-8")
    return 0
