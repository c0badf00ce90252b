"""Whether the decks of conformance/ see: a card in Python passes them all, and with each of its faults it does not pass those of the topic.

It needs pytest, and the programs, built by tools/build or by `rt ci`.
"""

import importlib
import shutil
import sys
import time

import pytest

from conformance_edits import EDITS
from conformance_faults import GIVEN, TOP, Model, conform, decks, found_by, rows
from model_card.faults import TOPICS
from units import statements

SECONDS = 120  # for all wrong cards; they take some two
PAGE = TOP / "docs" / "CONFORMANCE.md"
# Commands whose effect a later one of their deck hides, or that only read by counting.
HIDDEN = 15
CONSTANT = ("diversified",)  # its static bytes are keys, which no command writes


@pytest.fixture(scope="module")
def found():
    begun = time.monotonic()
    them = found_by()
    assert time.monotonic() - begun < SECONDS
    return them


def test_a_card_without_a_fault_passes_every_deck():
    seen = {it.path.name: it.differs(frozenset()) for it in decks()}
    assert len(seen) > 70 and not any(seen.values()), {name: line for name, line in seen.items() if line}


def test_every_topic_has_wrong_cards():
    assert len(TOPICS) >= 20 and set(TOPICS.values()) == {it.topic for it in decks()}


@pytest.mark.parametrize("fault", TOPICS)
def test_a_wrong_card_is_found_by_a_deck_of_its_topic(found, fault):
    assert found[fault], f"no deck of {TOPICS[fault]} finds a card of which is true: {fault}"


@pytest.fixture(name="cards", scope="module")
def _cards(tmp_path_factory):
    folder = tmp_path_factory.mktemp("cards")
    sys.path.insert(0, str(folder))
    yield folder
    sys.path.remove(str(folder))


@pytest.mark.parametrize("number", range(len(EDITS)), ids=lambda it: EDITS[it][1].replace(" ", "_"))
def test_an_edited_card_is_found_by_a_deck_of_its_topic(cards, number):
    topic, what, file, old, new = EDITS[number]
    source = TOP / "tools" / "tests" / "model_card"
    text = (source / file).read_text(encoding="utf-8")
    assert text.count(old) == 1
    shutil.copytree(source, cards / f"edited_{number}", ignore=shutil.ignore_patterns("__pycache__"))
    (cards / f"edited_{number}" / file).write_text(text.replace(old, new), encoding="utf-8")
    reader = importlib.import_module(f"edited_{number}.reader").Reader
    assert any(is_found(it, reader) for it in decks() if it.topic == topic), f"no deck of {topic} finds a card of which is true: {what}"


def is_found(deck, reader):
    """Whether an answer of a card differs, or the card breaks down."""
    class Edited(Model):
        def format(self):
            self.reader = reader(self.faults)
            self.reset()

    run = conform.Run(GIVEN, Edited(frozenset()), deck.lines)
    try:
        return any(seen != wanted for _, _, seen, wanted in run.answers(deck.results))
    except (AttributeError, IndexError, KeyError, TypeError, ValueError):
        return True


def test_the_page_has_the_wrong_cards_with_the_decks_that_find_them(found):
    page = PAGE.read_text(encoding="utf-8").splitlines()
    start = page.index("| Wrong card | Topic | Found by |") + 2
    assert page[start:start + len(TOPICS)] == rows(found)


def test_a_misspelt_fault_is_none():
    assert all(it.differs(frozenset(["no such fault"])) is None for it in decks() if it.topic == "cuts")


def counted(deck):
    """The commands to applications of a deck that change static bytes, counted from 1."""
    changing = []

    class Watched(Model):
        def send(self, command):
            card = self.reader.card
            before, number = {aid: bytes(it.static) for aid, it in card.memory.applications.items()}, card.commands
            answer = super().send(command)
            now = card.memory.applications
            if card.commands > number and any(aid in now and bytes(now[aid].static) != static for aid, static in before.items()):
                changing.append(card.commands)
            return answer

    for _ in conform.Run(GIVEN, Watched(frozenset()), deck.lines).answers(deck.results):
        pass
    return changing


def test_a_forgotten_command_is_found():
    trials = [(it, number) for it in decks() for number in counted(it)]
    missed = [(it.name, number) for it, number in trials if it.differs(frozenset([f"command {number} is forgotten"])) is None]
    assert len(trials) > 100 and len(missed) <= HIDDEN, missed


def reads_after(deck, line):
    """Whether a deck reads after the power-up of a line: it selects what is absent, or a command of an application answers with data."""
    for number, fields in ((at, it) for at, it in statements(deck.lines) if at > line):
        result = deck.results.get(number, "")
        if fields[0] == "power" and number > line:
            return False
        if fields[0] == "select" and result == "6A82" or fields[0] == "apdu" and len(result) > 4 and not result.startswith(("abend", "off")):
            return True
    return False


def last_of(deck, word):
    """The line of a deck's last statement of a word, 0 if there is none; a load counts if it brings static bytes."""
    return max((at for at, fields in statements(deck.lines) if fields[0] == word and (word != "load" or int(fields[2]))), default=0)


@pytest.mark.parametrize("deck", [pytest.param(it, id=f"{it.topic}/{it.name}") for it in decks() if last_of(it, "load") and it.name not in CONSTANT])
def test_a_deck_with_static_bytes_reads_after_its_last_power_up(deck):
    assert last_of(deck, "power") > last_of(deck, "load") and reads_after(deck, last_of(deck, "power"))
