"""Puts the words of drafts into the files by which editors highlight them: those of vim, Emacs, and TextMate's grammar.

    tools/dev/make [--check] words

The words are those of the definitions: instructions, registers and conditions of assembly, declarations and the header's names, and the
statements of decks. The words of the instructions are compared with the rows of crates/mc_isa, from which code is listed. With --check
nothing is written, and the script ends with 1 if a file is not up to date.

It needs Python 3.9.
"""

import argparse
import json
import re
import sys
from pathlib import Path

TOP = Path(__file__).resolve().parent.parent.parent.parent
CRATES = TOP / "crates"
# Each kind of word: the file of its definition, and the names of the lists there.
TABLES = {
    "instruction": ("model_text/specs/Assembly.antt", ["words"]),
    "register": ("model_text/specs/Listing.antt", ["register_names"]),
    "condition": ("model_text/specs/Listing.antt", ["condition_names"]),
    "declaration": ("desk_draft/specs/Declarations.antt", ["declaration_words"]),
    "field": ("desk_draft/specs/Declarations.antt", ["header_bytes", "header_words"]),
    "statement": ("model_play/specs/DeckGrammar.antt", ["deck_words"]),
}
# Words of sections that are in no list: what ends one, and its data.
SECTION_WORDS = ["DATA", "end"]
# Instructions after which the next one does not simply follow.
FLOW = re.compile(r"(BRANCH|JUMP|CALL|RET|EXIT)")
# Words of the assembler without a row of their own: one that is no instruction, and one whose row is of another form.
ROWLESS = {"BYTE", "PRIM"}


class Failed(Exception):
    """Why no words were written."""


def list_of(text, name):
    """The words of a list of a definition."""
    found = re.search(rf"^{name} =(.*?)\[\]", text, re.MULTILINE | re.DOTALL)
    if found is None:
        raise Failed(f"there is no list {name}")
    return re.findall(r'codes "([A-Za-z0-9]+)"', found.group(1))


def table():
    """The words of each kind."""
    found = {kind: [word for name in names for word in list_of((CRATES / path).read_text(encoding="utf-8"), name)]
             for kind, (path, names) in TABLES.items()}
    rows = re.findall(r'row!\("([A-Z]+)"', (CRATES / "mc_isa/src/rows.rt").read_text(encoding="utf-8"))
    differing = set(rows) ^ (set(found["instruction"]) - ROWLESS)
    if differing:
        raise Failed(f"the assembler and the listing differ in {' '.join(sorted(differing))}")
    found["flow"] = [it for it in found["instruction"] if FLOW.match(it)]
    found["instruction"] = [it for it in found["instruction"] if not FLOW.match(it)]
    found["declaration"] += SECTION_WORDS[:1]
    found["statement"] += SECTION_WORDS[1:]
    return found


# ---- the files


def between(path, mark, lines):
    """A text whose lines between two marks are these."""
    text = path.read_text(encoding="utf-8")
    first, last = f"{mark} words, written by tools/dev/make words\n", f"{mark} end of words\n"
    if text.count(first) != 1 or text.count(last) != 1:
        raise Failed(f"{path} has no marks")
    return text[:text.index(first) + len(first)] + "".join(f"{it}\n" for it in lines) + text[text.index(last):]


def vim(words):
    """The syntax file of vim. Statements count at the beginning of a line alone."""
    groups = {"instruction": "melcardInstruction", "flow": "melcardFlow", "register": "melcardRegister", "condition": "melcardCondition",
              "declaration": "melcardDeclaration", "field": "melcardField"}
    lines = [f"syntax keyword {group} {' '.join(words[kind])}" for kind, group in groups.items()]
    statements = "\\|".join(words["statement"])
    lines.append(f"syntax match melcardStatement /^\\s*\\%({statements}\\)\\ze\\%(\\s\\|$\\)/")
    return between(TOP / "tools/editors/vim/syntax/melcard.vim", '"', lines)


def emacs(words):
    """The mode of Emacs."""
    lines = ["(defconst melcard-words", "  '(" + "\n    ".join(f"({kind} {' '.join(json.dumps(it) for it in found)})" for kind, found in words.items()) + ")",
             '  "The words of drafts by their kinds.")']
    return between(TOP / "tools/editors/emacs/melcard-mode.el", ";;", lines)


def textmate(words):
    """The grammar of TextMate."""
    def any_of(kind):
        return f"\\b({'|'.join(words[kind])})\\b"

    scopes = [("instruction", "keyword.other.instruction"), ("flow", "keyword.control"), ("register", "variable.language.register"),
              ("condition", "constant.language.condition"), ("declaration", "storage.type"), ("field", "support.variable.header")]
    patterns = [
        {"name": "string.unquoted.expectation.melcard", "match": "^\\s*#>.*$"},
        {"name": "meta.preprocessor.rule.melcard", "match": "^\\s*#[@!].*$"},
        {"name": "comment.line.number-sign.melcard", "match": "^\\s*#.*$"},
        {"name": "comment.line.semicolon.melcard", "match": ";.*$"},
        {"name": "keyword.control.statement.melcard", "match": f"^\\s*({'|'.join(words['statement'])})(?=\\s|$)"},
        {"name": "entity.name.function.label.melcard", "match": "^\\s*[A-Za-z_][A-Za-z0-9_]*(?=:)"},
        *({"name": f"{scope}.melcard", "match": any_of(kind)} for kind, scope in scopes),
        {"name": "constant.numeric.melcard", "match": "(?<![A-Za-z0-9_])(0x[0-9A-Fa-f]+|-?[0-9A-F]*[0-9][0-9A-F]*)\\b"},
    ]
    grammar = {"name": "melcard", "scopeName": "source.melcard", "fileTypes": ["draft", "deck"], "patterns": patterns}
    return json.dumps(grammar, indent=2) + "\n"


FILES = {"tools/editors/vim/syntax/melcard.vim": vim, "tools/editors/emacs/melcard-mode.el": emacs, "tools/editors/vscode/syntaxes/melcard.tmLanguage.json": textmate}


def put(is_check):
    """Puts the words into the files, or compares them."""
    words, late = table(), []
    for name, make in FILES.items():
        path, text = TOP / name, make(words)
        if not path.is_file() or path.read_text(encoding="utf-8") != text:
            late.append(name)
            if not is_check:
                path.write_text(text, encoding="utf-8")
                print(name)
    if is_check and late:
        raise Failed(f"not up to date: {' '.join(late)}. Run tools/dev/make words")


def main(given_words):
    """Puts the words into the files, or compares them."""
    given = argparse.ArgumentParser(prog="tools/dev/make words", description="Puts the words of drafts into the files of editors.")
    given.add_argument("--check", action="store_true", help="write nothing, and end with 1 if a file is not up to date")
    try:
        put(given.parse_args(given_words).check)
    except Failed as why:
        print(f"tools/dev/make words: {why}", file=sys.stderr)
        return 1
    return 0
