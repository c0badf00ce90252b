"""A deck that is divided by tools/mel/split_deck.py: its parts, one after the other, have its results.

It needs pytest, and the programs, built by tools/build or by `rt ci`.
"""

import importlib.machinery
import importlib.util
import pathlib
import random
import subprocess
import sys

import pytest
from card import program_path

TOP = pathlib.Path(__file__).resolve().parent.parent.parent
SELECTS = ["select A000000001", "select A000000002", "apdu 00A4040C05A000000001", "select A000000009"]
HEAD = """format
power
app counter A000000001
INCN SB[0],2
INCN DB[0],1
LOAD SB[0],2
STORE PB[0],2
LOAD DB[0],1
STORE PB[2],1
EXITLA 3
end
app other A000000002
ADDB SB[3],7
LOAD SB[0],4
STORE PB[0],4
EXITLA 4
DATA 01020304
end
"""
LOADS = ["load counter 2 1", "load other 4 0", "delete A000000001", "delete A000000002"]


def results(lines):
    """The results of a play."""
    done = subprocess.run([program_path("melcard"), "play"], input="".join(f"{line}\n" for line in lines).encode(), stdout=subprocess.PIPE, check=False)
    assert done.returncode == 0, done.stdout.decode()
    return [line.partition(" ")[2] for line in done.stdout.decode().splitlines()]


def deck_of(seed, count):
    """A random deck with cuts, loads and deletions."""
    draw = random.Random(seed)
    lines = [*HEAD.splitlines(), "load counter 2 1", "load other 4 0"]
    for _ in range(count):
        kind = draw.randrange(20)
        if kind < 9:
            lines.append(draw.choice(["apdu 8001000003", "apdu 8001000004", "apdu 80010000"]))
        elif kind < 12:
            lines.append(draw.choice(SELECTS))
        elif kind < 14:
            lines.append(draw.choice(LOADS))
        elif kind < 16:
            lines += [f"{draw.choice(['cut', 'cut', 'fail'])} {draw.randrange(1, 24)}"]
            lines[-1] += " FFFFFFFFFFFFFFFF" if lines[-1].startswith("cut") else ""
        elif kind == 16:
            lines.append(draw.choice(["budget 3", "budget 10000", "# a remark", "#@ move power"]))
        elif kind == 17:
            lines += ["apdu BE1200000C000200010000000000090009", "apdu BE2400000206FF"]
        else:
            lines.append("power")
    return [*lines, "power", "dump A000000001", "dump A000000002"]


def split(deck, folder, *words):
    """What the tool does."""
    return subprocess.run([sys.executable, str(TOP / "tools" / "mel" / "split_deck.py"), *map(str, words), str(deck), str(folder)], stdout=subprocess.PIPE,
                          stderr=subprocess.PIPE, text=True, check=False)


def lines_of_parts(folder, name):
    """The lines of each part."""
    paths = sorted(folder.glob(f"{name}.*.deck"), key=lambda it: int(it.name.split(".")[1]))
    return [it.read_text(encoding="utf-8").splitlines() for it in paths]


@pytest.mark.parametrize("seed", range(60))
def test_the_parts_have_the_results_of_the_whole(tmp_path, seed):
    deck = tmp_path / "long.deck"
    lines = deck_of(seed, 400)
    deck.write_text("".join(f"{line}\n" for line in lines), encoding="utf-8")
    done = split(deck, tmp_path / "parts", "--lines", 130)
    assert done.returncode == 0, done.stderr
    parts = lines_of_parts(tmp_path / "parts", "long")
    assert len(parts) > 3 and all(len(it) <= 130 for it in parts)
    whole = results(lines)
    found = results(parts[0])
    for part in parts[1:]:
        seen = results(part)
        shift = int(part[0].rpartition("line N + ")[2].split()[0])
        start = int(part[0].partition("from its line ")[2].split()[0])
        front = start - shift - 1
        assert part[front:] == lines[start - 1:start - 1 + len(part) - front]
        before = [line for line in part[:front] if line.split()[0] in ("format", "power", "load", "apdu")]
        assert set(seen[:len(before)]) <= {"formatted", "ready 0", "9000"}
        found += seen[len(before):]
    assert found == whole


def test_a_deck_past_the_limit_of_lines(tmp_path):
    lines = deck_of(1, 0)[:-3]
    lines += [it for place in range(9000) for it in ("power", "select A000000001", "apdu 8001000003", f"#> {place + 1:04X}01 9000")]
    deck = tmp_path / "day.deck"
    deck.write_text("".join(f"{line}\n" for line in lines), encoding="utf-8")
    assert subprocess.run([program_path("mellab"), "expect"], input=deck.read_bytes(), stdout=subprocess.PIPE, check=False).stdout == b"line 20001 TooManyLines\n"
    assert split(deck, tmp_path / "parts").returncode == 0
    counts = []
    for part in lines_of_parts(tmp_path / "parts", "day"):
        done = subprocess.run([program_path("mellab"), "expect"], input="".join(f"{line}\n" for line in part).encode(), stdout=subprocess.PIPE, check=False)
        assert done.returncode == 0
        counts.append(int(done.stdout.split()[1]))
    assert len(counts) == 2 and sum(counts) == 9000 + 3


def test_places_and_large_gaps_are_kept():
    lines = ["format", "power"]
    for place in range(1, 6):
        code, size = 8000 - place, 4096 if place != 3 else 8
        aid = f"A0000001{place:02X}"
        lines += [f"unit u{place} {'00' * 8}{code:04X}{'00' * code}0000" + f"000961074F05{aid}" + f"00096F078405{aid}" + "00000000", f"load u{place} {size} 0"]
    lines += ["delete A000000101", "delete A000000102", "delete A000000104", "power", "load u3 8 0", "load u4 8 0", "load u1 8 0", "delete A000000103",
              "power", "load u2 4096 0", "cut 5 0000000000000000", "load u3 8 0", "power", "dump A000000103"]
    loader = importlib.machinery.SourceFileLoader("split_deck", str(TOP / "tools" / "mel" / "split_deck.py"))
    module = importlib.util.module_from_spec(importlib.util.spec_from_loader("split_deck", loader))
    sys.modules["split_deck"] = module
    loader.exec_module(module)
    whole = results(lines)
    for count in [place for place, line in enumerate(lines, 1) if line == "power" and place > 2]:
        part = module.Part([], module.State(), module.items_of(lines))
        at, state = part.divided(count)
        after = part.next(at, state, "# {shift}")
        seen = results(after.text(len(after.items)))
        left = len([line for line in lines[count:] if line.split()[0] not in ("unit", "cut")])
        assert at == count and seen[-left:] == whole[-left:] and set(seen[:-left]) == {"formatted", "ready 0", "9000"}


@pytest.mark.parametrize("line, cause", [("nonsense", "BadLine"), ("apdu 8", "BadHex"), ("load counter x 1", "BadNumber"), ("load nobody 2 1", "UnknownName"),
                                         ("format", "LateLine"), ("app counter A000000001\n EXIT\nend", "NameTwice"), ("app more A000000003\n EXIT", "NoEnd")])
def test_a_deck_that_is_refused_is_not_divided(tmp_path, line, cause):
    lines = deck_of(0, 400)
    for at in (30, len(lines) // 2, len(lines)):
        deck, folder = tmp_path / "bad.deck", tmp_path / "parts"
        deck.write_text("".join(f"{it}\n" for it in [*lines[:at], line, *lines[at:]]), encoding="utf-8")
        done = split(deck, folder, "--lines", 130)
        assert (done.returncode, done.stdout) == (1, "") and not folder.exists()
        assert done.stderr == f"split_deck: melcard refuses the deck: line {at + 1} {cause}\n"


def test_a_part_that_cannot_be_written_leaves_none(tmp_path):
    deck, folder = tmp_path / "long.deck", tmp_path / "parts"
    deck.write_text("".join(f"{it}\n" for it in deck_of(1, 400)), encoding="utf-8")
    (folder / "long.2.deck").mkdir(parents=True)
    done = split(deck, folder, "--lines", 130)
    assert (done.returncode, done.stdout) == (2, "") and "long.2.deck" in done.stderr
    assert [it.name for it in folder.iterdir()] == ["long.2.deck"]
    assert split(deck, folder, "--lines", 0).returncode == split(deck, folder, "--lines", 20001).returncode == 2


def test_bytes_that_are_no_text_stay(tmp_path):
    deck = tmp_path / "raw.deck"
    deck.write_bytes(b"# \xff\xfe\nformat\r\npower\n# \xe9")
    assert split(deck, tmp_path / "parts").returncode == 0
    assert (tmp_path / "parts" / "raw.1.deck").read_bytes() == b"# \xff\xfe\nformat\npower\n# \xe9\n"


def test_a_session_without_an_end_is_not_divided(tmp_path):
    deck = tmp_path / "one.deck"
    deck.write_text("".join(f"{line}\n" for line in [*deck_of(1, 0)[:-3], "select A000000001", *["apdu 8001000003"] * 200]), encoding="utf-8")
    done = split(deck, tmp_path / "parts", "--lines", 100)
    assert done.returncode == 1 and "there is no power line that answers `ready`" in done.stderr
