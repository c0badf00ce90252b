"""Random programs of the subset: gcc and the card answer the same, command for command, and have the same static bytes.

MELC_PROGRAMS is the number of programs (40 if it is not set), MELC_SEED the first of them. It needs pytest, Hypothesis, pycparser, gcc, and the
programs, built by tools/build or by `rt ci`.
"""

import os
import pathlib
import random
import shutil

import melc_host
import melc_programs
import pytest

COUNT, FIRST, BATCH = int(os.environ.get("MELC_PROGRAMS", "40")), int(os.environ.get("MELC_SEED", "0")), 20
EXAMPLES = pathlib.Path(__file__).resolve().parent.parent.parent / "examples"
pytestmark = pytest.mark.skipif(shutil.which("gcc") is None, reason="gcc is not installed")


def play_of(folder, number, pick):
    """A random program with its commands, or None if melc refuses it, which may be right."""
    text, commands = melc_programs.Maker(pick).program(), melc_programs.commands(pick)
    path, name = pathlib.Path(folder, f"app{number}.c"), f"app{number}"
    path.write_text(text.replace("03 77", f"03 {number % 256:02X}"), encoding="utf-8")
    try:
        return path, name, melc_host.draft_of(path, name), commands
    except melc_host.Refused as why:
        assert "error: " in str(why)
        return None


@pytest.mark.parametrize("first", range(FIRST, FIRST + COUNT, BATCH))
def test_random_programs_do_on_the_card_what_they_do_here(tmp_path, first):
    rolls = {seed: random.Random(seed) for seed in range(first, min(first + BATCH, FIRST + COUNT))}
    plays = [play_of(tmp_path, seed, roll.randrange) for seed, roll in rolls.items()]
    found = melc_host.differences([it for it in plays if it is not None])
    assert not found, "\n".join(found)
    assert sum(it is not None for it in plays) >= len(plays) // 2


def test_a_difference_is_made_small(tmp_path):
    """Hypothesis makes programs, and shrinks one whose answers differ."""
    hypothesis = pytest.importorskip("hypothesis")
    strategies = hypothesis.strategies

    @hypothesis.settings(max_examples=int(os.environ.get("MELC_EXAMPLES", "5")), deadline=None, database=None,
                         suppress_health_check=list(hypothesis.HealthCheck))
    @hypothesis.given(strategies.data())
    def holds(data):
        play = play_of(tmp_path, 0, lambda count: data.draw(strategies.integers(0, count - 1)))
        hypothesis.assume(play is not None)
        found = melc_host.differences([play])
        assert not found, found[0] + "\n" + play[0].read_text(encoding="utf-8")

    holds()


@pytest.mark.parametrize("name", ["badge", "purse"])
def test_the_examples_do_on_the_card_what_they_do_here(name):
    roll = random.Random(7)
    heads = {"badge": ["80200000 04 31323334", "80200000 04 31323335", "80240000 04 41424344", "8030000002", "0030000002", "80200000 04 41424344"],
             "purse": ["80200000 02 1234", "80200000 02 0000", "80400000 02 0010 02", "80400000 02 FFFF 02", "8050000002", "8060000000"]}[name]
    commands = ["".join(roll.choice(heads).split()) if roll.randrange(8) else "select" for _ in range(200)]
    assert melc_host.difference(EXAMPLES / f"{name}.c", commands, name) is None
