"""What tools/mel/scan.py finds of an application.

It needs pytest, and the programs, built by tools/build or by `rt ci`.
"""

import pathlib
import subprocess
import sys

import scan

TOP = pathlib.Path(__file__).resolve().parent.parent.parent
# INS 07 with P1 of 80 to 8F and two bytes of data answers one byte; all else is 6D00.
HIDDEN = """format
power
app hidden A000000101
        CMPB PT[-12],0x07
        JUMP NE,no
        CMPB PT[-11],0x80
        JUMP LT,no
        CMPB PT[-11],0x90
        JUMP GE,no
        CMPW PT[-8],2
        JUMP NE,length
        EXITLA 1
length: EXITSW 0x6700
no:     EXITSW 0x6D00
end
load hidden 0 0
"""


def run(*words):
    """What the tool does."""
    return subprocess.run([sys.executable, str(TOP / "tools" / "mel" / "scan.py"), *map(str, words)], stdout=subprocess.PIPE, stderr=subprocess.PIPE,
                          text=True, check=False)


def test_a_run_of_one_answer_is_one_line(tmp_path):
    deck = tmp_path / "lengths.deck"
    deck.write_text(HIDDEN.replace("        CMPB PT[-11],0x80\n        JUMP LT,no\n        CMPB PT[-11],0x90\n        JUMP GE,no\n", ""), encoding="utf-8")
    assert run(deck, "A000000101", "--longest", 4).stdout.splitlines() == [
        "INS 07 P1 00 data 0-1: 6700", "INS 07 P1 00 data 2: 9000", "INS 07 P1 00 data 3-4: 6700",
        "INS 07 P1 00 data 0-1 with Le: 6700", "INS 07 P1 00 data 2 with Le: 9000 and 1 byte", "INS 07 P1 00 data 3-4 with Le: 6700"]


def test_another_p1_is_found_by_its_length(tmp_path):
    deck = tmp_path / "hidden.deck"
    deck.write_text(HIDDEN.replace("        CMPW PT[-8],2\n        JUMP NE,length\n", ""), encoding="utf-8")
    assert run(deck, "A000000101", "--longest", 2).stdout.splitlines() == [
        "INS 07 P1 80-8F data 0: 9000", "INS 07 P1 80-8F data 0 with Le: 9000 and 1 byte"]


def test_each_p1_is_sent_with_each_length(tmp_path):
    deck = tmp_path / "hidden.deck"
    deck.write_text(HIDDEN, encoding="utf-8")
    given = scan.argparse.Namespace(deck=deck, aid="A000000101", cla=0x80, but="6D00", longest=2, whole=True)
    with scan.Card(deck) as card:
        assert list(scan.Scan(given).of_ins(card, 7)) == [
            *(f"INS 07 P1 80-8F data {it}: {word}" for it, word in ((0, "6700"), (1, "6700"), (2, "9000"))),
            *(f"INS 07 P1 80-8F data {it} with Le: {word}" for it, word in ((0, "6700"), (1, "6700"), (2, "9000 and 1 byte")))]


def test_an_application_is_named_by_its_section(tmp_path):
    deck = tmp_path / "hidden.draft"
    deck.write_text(HIDDEN.replace("load hidden 0 0", "load hidden"), encoding="utf-8")
    found = run(deck, "hidden", "--longest", 0)
    assert (found.returncode, found.stderr) == (0, "") and found.stdout == run(deck, "A000000101", "--longest", 0).stdout
    assert "INS 07 P1 80-8F data 0: 6700" in found.stdout
    other = run(deck, "hiden", "--longest", 0)
    assert (other.returncode, other.stdout) == (2, "") and other.stderr.endswith("no section of the deck is named so; there are hidden\n")


def test_a_class_that_is_none_is_a_sentence(tmp_path):
    found = run(tmp_path / "no.deck", "hidden", "--cla", "zz")
    assert found.returncode == 2 and "zz is no class: it has two hexadecimal digits" in found.stderr and "Traceback" not in found.stderr


def test_runs():
    assert scan.runs_of([(1, "a"), (2, "a"), (4, "a"), (5, "b")]) == [("1-2", "a"), ("4", "a"), ("5", "b")]


def test_a_wrong_name_or_deck_is_status_2(tmp_path):
    deck = tmp_path / "hidden.deck"
    deck.write_text(HIDDEN, encoding="utf-8")
    assert run(deck, "A000000109").returncode == 2 and "cannot be selected" in run(deck, "A000000109").stderr
    assert run(deck, "nothex").returncode == 2 and "nothex is no AID" in run(deck, "nothex").stderr
    deck.write_text("nonsense\n", encoding="utf-8")
    assert "line 1 BadLine" in run(deck, "A000000101").stderr
