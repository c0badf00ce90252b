"""The rules of a draft have names, and those of a deck stay.

It needs pytest, and the programs, built by tools/build or by `rt ci`.
"""

import pathlib
import subprocess

import pytest
from card import program_path

TOP = pathlib.Path(__file__).resolve().parent.parent.parent
HEAD = "format\npower\napp purse A000000100\nSTATIC money 2 03E8\nSTATIC pin 2 1234\nSESSION shown 1\n EXIT\nend\nload purse\n"
LINE = HEAD.count("\n") + 1


def run(name, *words, given, status):
    """A run of a program that ends with this status."""
    done = subprocess.run([program_path(name), *words], input=given, stdout=subprocess.PIPE, stderr=subprocess.PIPE, timeout=120, check=False)
    assert done.returncode == status, (done.stdout[-200:], done.stderr)
    return done


def deck_of(draft):
    """What `meldesk deck` makes of a draft, line by line."""
    return run("meldesk", "deck", given=draft.encode(), status=0).stdout.decode().split("\n")


@pytest.mark.parametrize("rule, made", [
    ("#@ on turn *CMPN {pin},{pin.size} 8*0 spend n 1", "#@ on turn *CMPN SB[2],2 8*0 spend n 1"),
    ("#@ always {pin+1} 0x34 0x34", "#@ always SB[3] 0x34 0x34"),
    ("#@ on turn *SETB {shown}* need n 1", "#@ on turn *SETB DB[0]* need n 1"),
    ("#@ on turn *CMPB {INS}* need n 1", "#@ on turn *CMPB PT[-12]* need n 1"),
    ("\t#@  move  select\tpurse ", "\t#@  move  select\tA000000100 "),
    ("#@ move delete purse", "#@ move delete A000000100"),
    ("#@ move apdu 80 20 0000 (1234)", "#@ move apdu 80200000021234"),
    ("#@ move power", "#@ move power"),
    ("# {pin} {none}", "# {pin} {none}"),
])
def test_a_rule_of_a_draft_has_names(rule, made):
    lines = deck_of(f"{HEAD}#@ app purse\n{rule}\n")
    assert lines[LINE - 1:LINE + 1] == ["#@ app purse", made]


@pytest.mark.parametrize("rule, cause, column, part", [
    ("#@ always {pins} 0 1", "UnknownName", 12, "pins"),
    ("#@ always {pin} 0 {pins.size}", "UnknownName", 20, "pins.size"),
    ("#@ always {pin+2} 0 1", "OutOfRange", 12, "pin+2"),
    ("#@ always {pin 0 1", "BadLine", 12, "pin 0 1"),
    ("#@ move select purses", "BadHex", 16, "purses"),
    ("#@ move apdu 80 20 0000 (123)", "BadHex", 25, "(123)"),
])
def test_a_rule_that_names_nothing_is_refused_where_it_does(rule, cause, column, part):
    draft = f"{HEAD}#@ app purse\n{rule}\n"
    for job in ("list", "check", "trace", "steps", "names"):
        assert run("meldesk", job, given=draft.encode(), status=1).stdout.decode() == f"line {LINE + 1} {cause}\n"
    refused = run("meldesk", "deck", given=draft.encode(), status=1)
    assert (refused.stdout, refused.stderr) == (b"", f"line {LINE + 1} {cause}\n".encode())
    explained = run("meldesk", "explain", "a.draft", given=draft.encode(), status=1).stdout.decode().split("\n")[0]
    assert explained.startswith(f"a.draft:{LINE + 1}:{column}: {cause}: `{part}` stands here; ")


def test_the_rules_of_a_deck_stay():
    deck = "format\npower\napp purse A000000100\n EXIT\nend\nload purse 0 0\n#@ app purse\n#@ move select purse\n#@ always {INS} 0 {none\n"
    run("melcard", "play", given=deck.encode(), status=0)
    assert "\n".join(deck_of(deck)) == deck


def test_the_draft_with_names_is_proved():
    draft = (TOP / "examples" / "pin_proved.draft").read_bytes()
    deck = run("meldesk", "deck", given=draft, status=0).stdout
    assert deck == (TOP / "examples" / "pin_proved.deck").read_bytes() and b"{" not in deck
    assert run("mellab", "prove", given=deck, status=0).stdout == (TOP / "examples" / "pin_proved.prove.txt").read_bytes()


def test_rules_move_with_their_declarations():
    """With one more declaration above, places change in the rules and in the code alike."""
    draft = (TOP / "examples" / "pin_proved.draft").read_text(encoding="ascii").replace("STATIC money", "STATIC more 4 00000000\nSTATIC money")
    draft = "".join(line for line in draft.splitlines(keepends=True) if "SB[" not in line or not line.startswith("#@ always"))
    assert "SB[7]" in run("meldesk", "deck", given=draft.encode(), status=0).stdout.decode()
    deck = run("meldesk", "deck", given=draft.encode(), status=0).stdout
    assert run("mellab", "prove", given=deck, status=0).stdout.split(b"\n")[-2].startswith(b"proved keys ")


def test_the_most_states_are_an_option():
    deck = (TOP / "examples" / "pin.deck").read_bytes()
    ended = [run("mellab", "explore", "40", "--states", most, given=deck, status=status).stdout.split(b"\n")[-2]
             for most, status in (("100", 6), ("484", 0), ("99999999", 0))]
    assert ended[0].startswith(b"explored states 100 tries ") and ended[1] == ended[2] == b"explored states 484 tries 20636 all"
    for words in (("100",), ("--states",), ("--states", "0"), ("--states", "123456789"), ("--depth", "3")):
        assert run("mellab", "explore", "40", *words, given=deck, status=2).stdout == b"usage: mellab expect | sweep | explore N | prove\n"
