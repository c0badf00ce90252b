"""Drafts go where decks go, and their names come back.

It needs pytest, and the programs, built by tools/build or by `rt ci`.
"""

import pathlib
import re
import subprocess
import sys

import pytest
from card import ReaderEnded, program_path

TOP = pathlib.Path(__file__).resolve().parent.parent.parent
DRAFT = TOP / "examples/wallet.draft"
PURSE = TOP / "examples/purse.draft"
SELECT = bytes.fromhex("00A4040C05A000000002")
PAY = bytes.fromhex("8001000004")


@pytest.fixture(autouse=True)
def desk_with_names(monkeypatch):
    """Lets the tools find a `meldesk` that has names."""
    monkeypatch.setenv("MELDESK", str(pathlib.Path(__file__).with_name("named_desk.py")))


def tear(*words):
    """What tools/mel/tear.py does."""
    return subprocess.run([sys.executable, str(TOP / "tools" / "mel" / "tear.py"), *map(str, words)], stdout=subprocess.PIPE, stderr=subprocess.PIPE,
                          text=True, check=False)


def test_a_card_plays_a_draft_and_its_session_is_a_deck(card, tmp_path):
    record = tmp_path / "session.deck"
    one, other = card(PURSE, record=record), card(PURSE.with_suffix(".deck"))
    assert one.transmit(SELECT) == other.transmit(SELECT) == b"\x90\x00"
    assert one.transmit(PAY) == other.transmit(PAY)
    assert one.session() == other.session() == record.read_text(encoding="utf-8")


def test_a_refused_draft_is_refused_at_its_line(card, tmp_path):
    draft = tmp_path / "wrong.draft"
    draft.write_text("format\napp a A000000101\nSTATIC SB 2\nend\n", encoding="utf-8")
    with pytest.raises(ReaderEnded, match="line 3 BadName"):
        card(draft)
    assert "line 3 BadName" in tear(draft, 1, 1).stderr


def test_static_bytes_have_names(card):
    one = card(PURSE)
    before = one.static("payer")
    one.transmit(SELECT)
    one.transmit(PAY)
    assert int.from_bytes(one.static("payer"), "big") == int.from_bytes(before, "big") - 1
    assert one.static("payer", "purse") == one.dump("A000000002")[:2]
    with pytest.raises(ValueError, match="no static bytes are named nobody"):
        one.static("nobody")


def test_a_name_of_two_sections_wants_one(card, tmp_path):
    draft = tmp_path / "two.draft"
    draft.write_text("format\npower\n" + "".join(f"app {name} A0000001{place:02}\nSTATIC count 1 0{place}\n EXIT\nend\nload {name}\n"
                                                 for place, name in enumerate(("one", "two"), 1)), encoding="utf-8")
    both = card(draft)
    assert (both.static("count", "one"), both.static("count", "two")) == (b"\1", b"\2")
    with pytest.raises(ValueError, match="several sections: one, two"):
        both.static("count")


def test_a_deck_has_no_names(card):
    with pytest.raises(ValueError, match="no names"):
        card(TOP / "examples/counter.deck").static("count")


def test_commands_are_hexadecimal_and_applications_are_named_by_their_sections(card):
    purse = card(TOP / "examples" / "purse.draft")
    name = next(line.split()[1:3] for line in (TOP / "examples" / "purse.draft").read_text(encoding="utf-8").splitlines() if line.startswith("app "))
    assert purse.transmit(f"00A4 040C {len(name[1]) // 2:02X} {name[1]}") == b"\x90\x00"
    assert purse.dump(name[0]) == purse.dump(name[1].lower()) is not None
    with pytest.raises(ValueError, match=f"no section of the deck is named so; there are {name[0]}"):
        purse.dump("wallet")
    for wrong in ("80 5", "zz", "80 50 0000 02h"):
        with pytest.raises(ValueError, match="whole bytes in hexadecimal"):
            purse.transmit(wrong)
    with pytest.raises(ValueError, match="two bytes at least"):
        purse.transmit("80")


def test_a_tear_names_bytes():
    shown = tear(DRAFT, 138, 10).stdout.splitlines()
    assert shown[0] == "line 138: apdu 80 40 0000 (00000123) 04"
    assert shown[4].split() == ["application", "place", "name", "before", "after", "cut"]
    assert ["A000000010", "0002", "balance+2", "1000", "0EDD", "0EDD"] in [line.split() for line in shown]
    assert "apdu 80400000040000012304" in shown[shown.index("These lines play it, in place of line 138 and those after it:"):]


def test_a_report_names_bytes(tmp_path):
    (tmp_path / "purse.draft").write_text(PURSE.read_text(encoding="utf-8"), encoding="utf-8")
    (tmp_path / "purse.deck").write_text(PURSE.with_suffix(".deck").read_text(encoding="utf-8"), encoding="utf-8")
    text = "line 3 expected static 0003 00?1 was static 0002 0001 (line 2 dump A000000002)\nexpected 1 failed 1\n"
    (tmp_path / "purse.expect").write_text(text, encoding="utf-8")
    (tmp_path / "expect.verdicts").write_text("1 purse.deck\n", encoding="utf-8")
    page = subprocess.run([sys.executable, str(TOP / "tools" / "mel" / "report.py"), str(tmp_path), "--decks", str(tmp_path)], stdout=subprocess.PIPE,
                          text=True, check=False)
    assert page.returncode == 1 and '<td class="text">payer+1</td>' in page.stdout


MISSPELT = [
    ("LOAD balance", "LOAD balanec", "balanec"), ("JUMP EQ,again", "JUMP EQ,agian", "agian"), ("load purse", "load pruse", "pruse"),
    ("LOAD balance", "LAOD balance", "LAOD"), ("SETB DB[0],1", "SETB BD[0],1", "BD[0]"), ("CONST limit 3", "CNOST limit 3", "CNOST")]


@pytest.mark.parametrize("was, now, wrong", MISSPELT)
def test_advice_names_no_similar_name(was, now, wrong):
    """What a writer meant is for the writer to say: a name that is close may be another one."""
    draft = ("format\npower\napp purse A000000001\nSTATIC balance 2\nSTATIC balances 2\nCONST limit 3\nagain: LOAD balance\n JUMP EQ,again\n SETB DB[0],1\n"
             " CMPB balance+1,limit\n STORE balances\n EXIT\nend\nload purse\n")
    assert draft.count(was) >= 1
    written = subprocess.run([program_path("meldesk"), "explain", "a.draft"], input=draft.replace(was, now, 1).encode(), stdout=subprocess.PIPE,
                             check=False).stdout.decode()
    line = next(it for it in written.splitlines() if f"`{wrong}`" in it and ": warning: " not in it)
    advice = line.split(": ", 2)[2].replace(f"`{wrong}`", "")
    assert not [it for it in ("balance", "balances", "again", "purse", "limit") if re.search(rf"\b{it}\b", advice)], line
