"""Gives the tests of the tools their modules and the fixture `card`: run them by `pytest tools/tests` at the top of a checkout."""

import pathlib
import signal
import sys

sys.path.insert(0, str(pathlib.Path(__file__).resolve().parent.parent / "mel"))
sys.path.insert(1, str(pathlib.Path(__file__).resolve().parent.parent))

# A shell lets what it runs in the background ignore Ctrl-C, and so would each program that a test starts.
if signal.getsignal(signal.SIGINT) == signal.SIG_IGN:
    signal.signal(signal.SIGINT, signal.default_int_handler)

pytest_plugins = ["card.fixture"]
