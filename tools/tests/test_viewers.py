"""A text of another deck is refused by each tool that shows it beside its deck, and what they write has the same bytes in each locale.

It needs pytest, and the programs, built by tools/build or by `rt ci`.
"""

import os
import pathlib
import subprocess
import sys

import fits
import labtexts
import pytest

TOP = pathlib.Path(__file__).resolve().parent.parent.parent
TOOLS = TOP / "tools" / "mel"
EXAMPLES = TOP / "examples"
# Texts of examples that are stored, by their decks.
STORED = {"purse.sweep.txt": "purse.deck", "pin.explore.txt": "pin.deck", "pin_late.explore.txt": "pin_late.deck", "ring.explore.txt": "ring.deck",
          "challenge.explore.txt": "challenge.deck", "pin_proved.prove.txt": "pin_proved.deck"}
DECK = """# é
format
power
#> ready 0
app a A000000001
 EXIT
end
load a 0 0
#> 9000
#! whole
select A000000001
#@ app a
#@ allow n 1
#@ on turn INC* spend n 1
#@ never abend
#@ move apdu 8001000000
dump A000000001
#> static ?? 03
"""
OF_DECK = [
    "line 4 NoAnswer\n", "expected 3 failed 0\n", "line 18 expected static ?? 03 was static 0A 02 (line 17 dump A000000001)\nexpected 3 failed 1\n",
    "line 8 writes 21: before 1-17 after 18-21 not whole\nswept 1 writes 21 plays 98\n", "line 10 not swept\nswept 0 writes 0 plays 0\n",
    "line 8 writes 21: before 1-17 after 18-21\n", "depth 1 states 1\nexplored states 2 tries 1 all\n", "silent line 14\nexplored states 2 tries 1 all\n",
    "broken n after 2 lines\napdu 8001000000\ncut 1 0000000000000000\n", "broken abend after 0 lines\n", "idle n 1: SB[0] 00\nproved keys 1\n",
    "broken n line 14 at 0003\nunknown 0007\nnot proved keys 3\n"]
OF_ANOTHER = [
    "line 19 BadLine\n", "expected 2 failed 0\n", "line 17 expected 9000 was 6D00 (line 16 apdu 80)\n",
    "line 18 expected static ?? 04 was static 0A 02 (line 17 dump A000000001)\n", "line 18 expected static ?? 03 was static 0A 02 (line 17 dump A000000002)\n",
    "line 18 expected static ?? 03 was static 0A 02 (line 11 select A000000001)\n", "line 7 writes 6: before 1-4 after 5-6\nswept 1 writes 6 plays 16\n",
    "line 3 writes 6: before 1-4 after 5-6 not whole\n", "line 9 not swept\n", "swept 0 writes 0 plays 0\n", "broken m after 0 lines\n",
    "broken n after 1 lines\napdu 8002000000\n", "silent line 13\n", "idle m 1: SB[0] 00\n", "broken n line 13 at 0003\n", "broken m line 14 at 0003\n",
    "broken abend line 14 at 0003\n"]


def tool(name, *words, locale=None):
    """What a tool does, as bytes."""
    env = {**os.environ, **(locale or {})}
    return subprocess.run([sys.executable, str(TOOLS / name), *map(str, words)], stdout=subprocess.PIPE, stderr=subprocess.PIPE, env=env, check=False)


@pytest.mark.parametrize("text", OF_DECK)
def test_a_text_of_a_deck_is_taken(text):
    fits.check(labtexts.read_text(text), labtexts.lines_of(DECK), "x")


@pytest.mark.parametrize("text", OF_ANOTHER)
def test_a_text_of_another_deck_is_seen(text):
    with pytest.raises(labtexts.BadText, match="^x is of another deck: "):
        fits.check(labtexts.read_text(text), labtexts.lines_of(DECK), "x")


def can_tell(read, lines):
    """Whether a text says anything by which a deck that is not its own is known: an exploration may say how many states there are alone."""
    rules = fits.Deck(lines).rules.values()
    return read.kind == "sweep" or not any(it[:1] == [{"explore": "move", "prove": "app"}[read.kind]] for it in rules)


@pytest.mark.parametrize("text", STORED)
def test_stored_texts_are_of_their_decks_alone(text):
    read, stem, count = labtexts.read_text(labtexts.read(EXAMPLES / text)), STORED[text].split(".")[0], 0
    for deck in [*EXAMPLES.glob("*.deck"), *EXAMPLES.glob("*.draft")]:
        lines = labtexts.lines_of(labtexts.read(deck))
        if deck.stem == stem:
            fits.check(read, lines, text)
        elif can_tell(read, lines) and deck.stem != "refused":
            with pytest.raises(labtexts.BadText):
                fits.check(read, lines, text)
            count += 1
    assert count > 5


VIEWERS = [("junit.py", "purse.sweep.txt"), ("junit.py", "pin.explore.txt"), ("junit.py", "pin_proved.prove.txt"), ("sweep_svg.py", "purse.sweep.txt"),
           ("prove_html.py", "pin_proved.prove.txt")]


@pytest.mark.parametrize("name, text", VIEWERS)
def test_a_viewer_refuses_a_text_of_another_deck(name, text):
    done = tool(name, EXAMPLES / text, EXAMPLES / "wallet.draft")
    assert (done.returncode, done.stdout) == (2, b"")
    assert done.stderr.decode().startswith(f"{name}: {EXAMPLES / text} is of another deck: ") and done.stderr.count(b"\n") == 1


@pytest.mark.parametrize("name", ["report.py", "junit.py"])
def test_a_campaign_with_a_text_of_another_deck_is_refused(tmp_path, name):
    (tmp_path / "wallet.sweep").write_bytes((EXAMPLES / "purse.sweep.txt").read_bytes())
    (tmp_path / "sweep.verdicts").write_text("0 examples/wallet.draft\n", encoding="utf-8")
    done = tool(name, *(["--campaign"] if name == "junit.py" else []), tmp_path, "--decks", TOP)
    assert (done.returncode, done.stdout) == (2, b"") and b"wallet.sweep is of another deck: " in done.stderr


LOCALES = [{"LC_ALL": "C", "PYTHONUTF8": "0", "PYTHONCOERCECLOCALE": "0"}, {"PYTHONIOENCODING": "latin-1"}]


@pytest.mark.parametrize("name, words", [("junit.py", ["a.expect", "a.deck"]), ("report.py", [".", "--title", "é – ü"]), ("sweep_svg.py", ["a.sweep", "a.deck"])])
def test_what_a_viewer_writes_is_utf_8_in_each_locale(tmp_path, monkeypatch, name, words):
    monkeypatch.chdir(tmp_path)
    long = f"apdu 80010000{64:02X}{'é' * 64}"
    (tmp_path / "a.deck").write_text(f"format\npower\n{long}\n#> é 9000\n", encoding="utf-8")
    (tmp_path / "a.expect").write_text(f"line 4 expected é 9000 was 6D00 (line 3 {long})\nexpected 1 failed 1\n", encoding="utf-8")
    (tmp_path / "a.sweep").write_text("line 3 writes 1: before 1-1\nswept 1 writes 1 plays 2\n", encoding="utf-8")
    (tmp_path / "expect.verdicts").write_text("1 a.deck\n", encoding="utf-8")
    found = [tool(name, *words, locale=it) for it in ({}, *LOCALES)]
    assert [it.stdout for it in found] == [found[0].stdout] * 3 and "é".encode() in found[0].stdout, found[-1].stderr
    assert not any(it.stderr for it in found)
