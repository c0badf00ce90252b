"""A plugin for pytest: the fixture `card`, which starts cards and ends them with the test.

    pytest_plugins = ["card.fixture"]     # in a conftest.py, with this package on Python's path

    def test_counts(card):
        counter = card("examples/counter.deck")
        assert counter.transmit(bytes.fromhex("00A4040C05A000000001")) == b"\\x90\\x00"

What a test sent and was answered is printed as a deck if the test fails, and so can be played again by `melcard`.
It needs pytest (Debian: python3-pytest).
"""

from __future__ import annotations

from typing import Any, Callable, Generator, Iterator, List, Optional

import pytest

from .cards import Card
from .decks import Path

CARDS = "_cards_of_melcard"


@pytest.fixture
def card(request: pytest.FixtureRequest) -> Iterator[Callable[..., Card]]:
    """Starts a card on which the deck of this path was played, or a blank one, and ends it with the test."""
    started: List[Card] = []
    setattr(request.node, CARDS, started)

    def start(deck: Optional[Path] = None, program: Optional[Path] = None, record: Optional[Path] = None) -> Card:
        started.append(Card(deck, program, record))
        return started[-1]

    yield start
    for it in started:
        it.close()


@pytest.hookimpl(hookwrapper=True)
def pytest_runtest_makereport(item: pytest.Item, call: Any) -> Generator[None, Any, None]:
    """Adds the sessions of a failed test to its report."""
    outcome = yield
    report = outcome.get_result()
    if report.when == "call" and report.failed:
        for number, it in enumerate(getattr(item, CARDS, ()), 1):
            report.sections.append((f"card {number}, its session as a deck", it.session()))
