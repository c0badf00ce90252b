"""The rules that `mel rules` writes of a purse: they are read, proved where they hold, and broken where the purse is.

It needs pytest, and the programs, built by tools/build or by `rt ci`.
"""

import os
import pathlib
import subprocess
import sys

import pytest

TOP = pathlib.Path(__file__).resolve().parent.parent.parent
MEL = TOP / "tools" / "mel" / "mel"
PURSE = pathlib.Path(__file__).with_name("purse.draft").read_text(encoding="utf-8")


def rules(draft, *words):
    """What `mel rules` does with a draft: its status, its lines, and what it says besides."""
    done = subprocess.run([sys.executable, "-B", str(MEL), "rules", words[0], str(draft), *words[1:]], stdout=subprocess.PIPE, stderr=subprocess.PIPE,
                          text=True, check=False, env={**os.environ})
    return done.returncode, done.stdout.splitlines(), done.stderr


@pytest.fixture(name="purse")
def _purse(tmp_path):
    path = tmp_path / "purse.draft"
    path.write_text(PURSE, encoding="utf-8")
    return path


# The words of each idiom, the number of its lines, and a change of the purse that breaks it.
IDIOMS = {
    "pin": (["pin", "pin", "--tries", "tries"], 6, [("        DECN tries              ; the try is spent before the PIN is looked at\n", "")]),
    "after a name": (["after", "debits", "pin"], 6, [("debit:  CMPB shown,1\n        JUMP NE,denied\n", "debit:  NOP\n")]),
    "after a line": (["after", "39", "pin"], 6, [("        SETB shown,1\n", ""), ("        LOAD guess\n", "        SETB shown,1\n        LOAD guess\n")]),
    "grows": (["grows", "debits", "--may-wrap"], 5, [("INCN debits", "DECN debits\n        INCN debits")]),
    "whole": (["whole", "balance", "debits"], 8, [("        PRIM 3,2                ; from here on writes of static bytes wait\n        SUBN balance\n",
                                                   "        SUBN balance\n        PRIM 3,2\n")]),
}


@pytest.mark.parametrize("name", IDIOMS)
def test_rules_hold_of_the_purse_and_not_of_a_broken_one(purse, name):
    words, count, changes = IDIOMS[name]
    status, lines, said = rules(purse, *words, "--try")
    assert (status, len(lines)) == (0, count) and said.startswith("proved keys "), said
    assert lines[0].startswith("# ") and lines[1] == "#@ app purse"
    text = PURSE
    for old, new in changes:
        assert text.count(old) == 1
        text = text.replace(old, new)
    # The rules of the purse, and not those that the broken one would have.
    purse.write_text(text + "\n".join(lines) + "\n", encoding="utf-8")
    done = subprocess.run([sys.executable, "-B", str(MEL), "prove", str(purse)], stdout=subprocess.PIPE, stderr=subprocess.PIPE, text=True, check=False)
    assert done.returncode == 1 and "\nbroken " in done.stdout, done.stdout + done.stderr


def test_the_lines_have_the_names_of_the_draft(purse):
    assert rules(purse, "pin", "pin", "--tries", "tries")[1] == [
        "# At most 3 wrong comparisons of pin between two right ones.", "#@ app purse", "#@ allow guesses 3",
        "#@ on turn *CMPN {pin},{pin.size} 8*0 spend guesses 1", "#@ on turn *CMPN {pin},{pin.size} 8*1 allow guesses 3", "#@ always {tries} 0 3"]
    assert rules(purse, "grows", "debits")[1][-1] == "#@ always SB[5..6] = 0 + added"


def test_a_number_that_wraps_is_found(purse):
    status, lines, said = rules(purse, "grows", "debits", "--try")
    assert status == 1 and "#@ allow wraps 0" in lines and said.startswith("broken wraps ") and "not proved" in said


def test_a_name_that_is_taken_is_not_taken_again(purse):
    first = rules(purse, "pin", "pin")[1]
    purse.write_text(PURSE + "\n".join(first) + "\n", encoding="utf-8")
    status, lines, said = rules(purse, "pin", "balance", "--count", "5", "--try")
    assert "#@ allow guesses2 5" in lines and "#@ app purse" not in lines and status in (0, 1) and not said.startswith("line "), said


def test_an_instruction_that_another_line_has_is_said(purse):
    status, lines, said = rules(purse, "after", "over", "pin")
    assert status == 0 and lines[-1] == "#@ on turn *POPN 2 8* need shown 1"
    assert said == "mel rules: lines 23, 38 have the same instruction as line 41, and the rule is about it too\n"


@pytest.mark.parametrize("words, why", [
    (["pin", "nothing"], "no section of {} has the static bytes nothing; there are balance, tries, pin, debits"),
    (["pin", "debits"], "no CMPN of purse compares debits, so no rule can speak of it"),
    (["pin", "pin", "--count", "0"], "--count is 1 to 255"), (["after", "nowhere", "pin"], "nowhere is no name of static bytes, no label and no number"),
    (["after", "1", "pin"], "line 1 has no instruction of purse"), (["after", "pin", "pin"], "no instruction of purse writes to pin"),
    (["grows", "tries"], "nothing adds to tries: line 20 writes it by DECN"), (["grows", "pin"], "no instruction of purse writes to pin"),
    (["grows", "shown"], "shown names no static bytes of purse"), (["whole", "balance", "pin"], "no instruction of purse writes to pin"),
    (["pin", "pin", "--section", "wallet"], "--section names one section of {}; there are purse")])
def test_what_a_draft_has_nothing_for_is_a_sentence(purse, words, why):
    status, lines, said = rules(purse, *words)
    assert (status, lines) == (2, []) and said.startswith(f"mel rules: {why.format(purse)}") and said.count("\n") == 1, said


def test_a_refused_draft_is_a_sentence(purse):
    purse.write_text(PURSE.replace("CMPN pin", "CMPZ pin"), encoding="utf-8")
    status, lines, said = rules(purse, "pin", "pin")
    assert (status, lines) == (2, []) and said == f"mel rules: {purse} is refused: line 22 UnknownWord\n"
