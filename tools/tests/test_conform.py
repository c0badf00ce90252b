"""What tools/mel/conform.py finds of a card: nothing of melreader's, and a planted fault. (tools/dev/try_pcsc tries it behind pcscd.)

It needs pytest, and the programs, built by tools/build or by `rt ci`.
"""

import pathlib
import subprocess
import sys

TOP = pathlib.Path(__file__).resolve().parent.parent.parent
FAULTY = pathlib.Path(__file__).with_name("faulty_reader.py")


def run(tool, *words):
    """What a tool does."""
    return subprocess.run([sys.executable, str(TOP / "tools" / tool), *map(str, words)], stdout=subprocess.PIPE, stderr=subprocess.PIPE, text=True,
                          check=False)


def test_the_decks_are_up_to_date():
    done = run("dev/make", "--check", "conformance")
    assert (done.returncode, done.stdout) == (0, ""), done.stderr


def test_nothing_differs_of_the_card_itself():
    done = run("mel/conform.py", "melreader", TOP / "conformance")
    assert (done.returncode, done.stderr) == (0, ""), done.stdout
    topics = {line.partition(":")[0] for line in done.stdout.splitlines()}
    assert topics == {it.name for it in (TOP / "conformance").iterdir()}
    assert all(line.endswith(" 0 differ") for line in done.stdout.splitlines())


def test_a_planted_fault_is_found_by_its_topic():
    done = run("mel/conform.py", "--program", FAULTY, "melreader", TOP / "conformance/commands", TOP / "conformance/machine")
    found = done.stdout.splitlines()
    assert done.returncode == 1
    assert found[-1] == "machine: 10 decks, 477 answers, 0 differ" and found[-2].startswith("commands: ") and not found[-2].endswith(" 0 differ")
    assert all("the card answers 6986, and melcard 6985" in line for line in found[:-2])


def test_a_draft_is_a_deck_and_a_poke_leaves_it_out(tmp_path):
    poked = tmp_path / "poked.deck"
    poked.write_text("format\npoke 130 1122334455667788\npower\n", encoding="utf-8")
    done = run("mel/conform.py", "melreader", TOP / "examples/purse.draft", poked)
    assert done.returncode == 0
    assert done.stdout.splitlines()[1].endswith("0 answers, 0 differ, 2 lines left out")


def test_a_stop_that_the_card_cannot_have_is_said(tmp_path):
    deck = tmp_path / "cut.deck"
    deck.write_text("format\npower\ncut 1 0000000000000000\npower\n", encoding="utf-8")
    done = run("mel/conform.py", "--cut", "test $K = 1 && test $FILL = 0000000000000000 && false", "melreader", deck)
    assert done.returncode == 2 and "ended with 1" in done.stderr


def test_a_refused_deck_and_a_reader_that_is_not_there(tmp_path):
    deck = tmp_path / "refused.deck"
    deck.write_text("format\nnonsense\n", encoding="utf-8")
    done = run("mel/conform.py", "melreader", deck)
    assert done.returncode == 2 and "line 2 BadLine" in done.stderr
    assert run("mel/conform.py", "No Such Reader", deck).returncode == 2
