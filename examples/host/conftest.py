"""Gives the tests of this folder the fixture `card`: run them by `pytest examples/host` at the top of a checkout, or by `pytest host` where
tools/install put the examples."""

import pathlib
import sys

ABOVE = list(pathlib.Path(__file__).resolve().parents)
PLACES = [ABOVE[2] / "tools" / "mel", *(folder / "melcard" / "mel" for folder in ABOVE[4:5])]

sys.path[:0] = [str(folder) for folder in PLACES if (folder / "card").is_dir()]

pytest_plugins = ["card.fixture"]
