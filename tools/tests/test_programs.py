"""The programs as they are run: their words, their files, their statuses, and when they read and write.

It needs pytest, and the programs, built by tools/build or by `rt ci`.
"""

import os
import pty
import select
import subprocess

import pytest
from card import program_path

COUNTER = (b"format\npower\napp counter A000000001\nINCN SB[0],2\nLOAD SB[0],2\nSTORE PB[0],2\nEXITLA 2\nend\n"
           b"load counter 2 0\nselect A000000001\napdu 8001000002\n")
COUNTED = b"1 formatted\n2 ready 0\n9 9000\n10 9000\n11 00019000\n"
POWER_ON = b"\x01"
SELECT = bytes.fromhex("00A4040C05A000000001")
CARD_USAGE = b"usage: melcard play | asm | list | gen N | check | trace\n"
LAB_USAGE = b"usage: mellab expect | sweep | explore N | prove\n"
READER_USAGE = b"usage: melreader [DECK]\n"
EXPECTED = COUNTER + b"#> 0001 9000\n"
# The counter with a rule that holds in every play, and one that does not.
RULED = COUNTER + b"#@ app counter\n#@ never abend\n"
WRAPS = b"#@ allow wraps 0\n#@ on turn *INCN SB[0],2 8*1? spend wraps 1\n"
# A word that is no text.
NO_TEXT = b"\xff"

# Runs of the programs over pipes: the words, the input, the status, and what is written to the standard output.
RUNS = [
    ("melcard", ["play"], COUNTER, 0, COUNTED),
    ("melcard", ["play"], b"format\nreboot\n", 1, b"line 2 BadLine\n"),
    ("melcard", ["asm"], b"PUSHB 1\nJUMBLE\n", 1, b"line 2 UnknownWord\n"),
    ("melcard", [], COUNTER, 2, CARD_USAGE),
    ("melcard", ["play", "play"], COUNTER, 2, CARD_USAGE),
    ("melcard", ["gen", "1", "2"], COUNTER, 2, CARD_USAGE),
    ("melcard", ["gen", "2147483648"], COUNTER, 2, CARD_USAGE),
    ("melcard", [NO_TEXT], COUNTER, 2, CARD_USAGE),
    ("melcard", ["play", NO_TEXT], COUNTER, 2, CARD_USAGE),
    ("mellab", ["expect"], EXPECTED, 0, b"expected 1 failed 0\n"),
    ("mellab", ["expect"], EXPECTED.replace(b"0001 9000", b"0002 9000"), 1,
     b"line 12 expected 0002 9000 was 0001 9000 (line 11 apdu 8001000002)\nexpected 1 failed 1\n"),
    ("mellab", ["sweep"], b"format\nreboot\n", 1, b"line 2 BadLine\n"),
    ("mellab", ["prove"], RULED, 0, b"idle:\nsession:\nproved keys 16\n"),
    ("mellab", ["prove"], RULED + WRAPS, 1,
     b"idle wraps 0:\nsession wraps 0:\nbroken wraps line 15 at 0000 ; INCN SB[0],2 ; created, select, apdu 00-BD,BF-FE 00-FF 00-FF 00-FF: 4\n"
     b"not proved keys 10\n"),
    ("mellab", ["prove"], RULED + WRAPS.replace(b"spend", b"lend"), 1, b"line 15 BadLine\n"),
    ("mellab", ["prove"], COUNTER, 1, b"line 0 NoApplication\n"),
    ("mellab", [], EXPECTED, 2, LAB_USAGE),
    ("mellab", ["expect", "sweep"], EXPECTED, 2, LAB_USAGE),
    ("mellab", [NO_TEXT], EXPECTED, 2, LAB_USAGE),
    ("mellab", ["--help", "expect"], EXPECTED, 2, LAB_USAGE),
]


def run(name, words, given, **more):
    """A whole run of a program over pipes."""
    return subprocess.run([program_path(name), *words], input=given, stdout=subprocess.PIPE, stderr=subprocess.PIPE, timeout=60, check=False, **more)


@pytest.mark.parametrize("name, words, given, status, text", RUNS)
def test_a_run_has_its_status_and_its_text(name, words, given, status, text):
    done = run(name, words, given)
    assert (done.returncode, done.stdout, done.stderr) == (status, text, b"")


# What the programs but melcard say of themselves: the page that their help names.
ABOUT = [("mellab", LAB_USAGE, "docs/LABORATORY.md"), ("melreader", READER_USAGE, "docs/READER.md"), ("meldesk", b"usage: meldesk deck | ", "docs/DESK.md")]


@pytest.mark.parametrize("name, usage, page", ABOUT)
def test_a_program_says_what_it_is(name, usage, page, tmp_path):
    help_text = run(name, ["--help"], b"", cwd=tmp_path)
    assert (help_text.returncode, help_text.stderr) == (0, b"") and help_text.stdout.startswith(usage)
    assert help_text.stdout.endswith(f"\nThe page is {page}.\n".encode()) and b"Example: " in help_text.stdout
    version = run(name, ["--version"], b"", cwd=tmp_path)
    assert (version.returncode, version.stdout, version.stderr) == (0, f"{name} 3\n".encode(), b"")


@pytest.mark.parametrize("name, words, given", [("melcard", ["play"], COUNTER), ("mellab", ["expect"], EXPECTED), ("melcard", [], b"")])
def test_an_output_that_is_full_is_status_4(name, words, given):
    with open("/dev/full", "wb") as full:
        assert subprocess.run([program_path(name), *words], input=given, stdout=full, timeout=60, check=False).returncode == 4


@pytest.mark.parametrize("name, words", [("melcard", ["play"]), ("mellab", ["expect"]), ("melreader", [])])
def test_an_input_that_cannot_be_read_is_status_3(name, words, tmp_path):
    folder = os.open(tmp_path, os.O_RDONLY)
    try:
        done = subprocess.run([program_path(name), *words], stdin=folder, stdout=subprocess.PIPE, timeout=60, check=False)
    finally:
        os.close(folder)
    assert (done.returncode, done.stdout) == (3, b"")


# ---- the reader: its deck, and its usage line


def framed(*frames):
    """Frames, each behind its length."""
    return b"".join(len(it).to_bytes(2, "big") + it for it in frames)


@pytest.mark.parametrize("words", [["one", "two"], ["one", "two", "three"], [NO_TEXT]])
def test_a_reader_whose_words_are_no_deck_writes_its_usage(words, tmp_path):
    (tmp_path / "one").write_bytes(COUNTER)
    done = run("melreader", words, framed(POWER_ON, SELECT), cwd=tmp_path)
    assert (done.returncode, done.stdout, done.stderr) == (2, b"", READER_USAGE)


def test_a_reader_names_a_deck_that_cannot_be_opened(tmp_path):
    done = run("melreader", ["nosuch.deck"], framed(POWER_ON, SELECT), cwd=tmp_path)
    assert (done.returncode, done.stdout, done.stderr) == (2, b"", b"melreader: nosuch.deck: cannot be opened\n")


def test_a_reader_plays_the_deck_that_its_word_names(tmp_path):
    (tmp_path / "blank.deck").write_bytes(b"format\n")
    (tmp_path / "counter.deck").write_bytes(COUNTER)
    loaded = run("melreader", ["counter.deck"], framed(POWER_ON, SELECT), cwd=tmp_path)
    assert (loaded.returncode, loaded.stdout) == (0, framed(b"\x90\x00"))
    for words in (["blank.deck"], []):
        blank = run("melreader", words, framed(POWER_ON, SELECT), cwd=tmp_path)
        assert (blank.returncode, blank.stdout) == (0, framed(b"\x6a\x82"))


def test_a_deck_that_is_refused_is_status_1(tmp_path):
    (tmp_path / "wrong.deck").write_bytes(b"format\nreboot\n")
    done = run("melreader", ["wrong.deck"], framed(POWER_ON, SELECT), cwd=tmp_path)
    assert (done.returncode, done.stdout, done.stderr) == (1, b"", b"line 2 BadLine\n")


def test_an_input_that_ends_in_a_frame_is_status_1():
    done = run("melreader", [], framed(POWER_ON, SELECT) + b"\x00")
    assert (done.returncode, done.stdout, done.stderr) == (1, framed(b"\x6a\x82"), b"frame 3 Short\n")


# ---- when a program reads and writes


def test_a_reader_answers_before_the_next_frame_comes():
    with subprocess.Popen([program_path("melreader")], stdin=subprocess.PIPE, stdout=subprocess.PIPE, bufsize=0) as one:
        for _ in range(3):
            one.stdin.write(framed(POWER_ON, SELECT))
            assert select.select([one.stdout], [], [], 30)[0], "no answer came before the end of the input"
            assert one.stdout.read(4) == framed(b"\x6a\x82")
        one.stdin.close()
        assert one.wait(30) == 0


@pytest.mark.parametrize("name, words, given, status", [("melcard", ["play"], COUNTER, 0), ("mellab", ["expect"], EXPECTED, 0)])
def test_a_user_at_a_terminal_ends_the_input_once(name, words, given, status):
    ours, theirs = pty.openpty()
    try:
        with subprocess.Popen([program_path(name), *words], stdin=theirs, stdout=subprocess.PIPE) as one:
            # The character that ends an input, at the beginning of a line, once.
            os.write(ours, given + b"\x04")
            try:
                assert one.wait(30) == status
            except subprocess.TimeoutExpired:
                one.kill()
                raise
    finally:
        os.close(ours)
        os.close(theirs)
