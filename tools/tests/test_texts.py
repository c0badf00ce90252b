"""The tools that read what `mellab` writes, over the examples.

It needs pytest, and the programs, built by tools/build or by `rt ci`.
"""

import pathlib
import re
import subprocess
import sys
import xml.etree.ElementTree as xml

import labtexts
import pytest
import sweep_svg
from card import program_path

TOP = pathlib.Path(__file__).resolve().parent.parent.parent
TOOLS = TOP / "tools" / "mel"


def lab(job, deck):
    """What `mellab` writes of a deck."""
    return subprocess.run([program_path("mellab"), job], input=deck.encode(), stdout=subprocess.PIPE, check=False).stdout.decode()


def tool(name, *words, text=""):
    """What a tool does."""
    return subprocess.run([sys.executable, str(TOOLS / name), *map(str, words)], input=text, stdout=subprocess.PIPE, stderr=subprocess.PIPE,
                          text=True, check=False)


def example(name):
    """The text of an example deck."""
    return (TOP / "examples" / f"{name}.deck").read_text(encoding="utf-8")


@pytest.mark.parametrize("name", ["purse", "cut", "two_counters"])
def test_a_tear_is_what_the_sweep_says_of_it(name):
    for line in labtexts.read_text(lab("sweep", example(name))).swept:
        for word, first, last in line.runs:
            for k in {first, last}:
                shown = tool("tear.py", TOP / "examples" / f"{name}.deck", line.number, k)
                assert shown.stdout.splitlines()[2].partition(":")[0] == word, (line, k)


def test_a_tear_writes_the_deck_that_plays_it(tmp_path):
    deck = tmp_path / "torn.deck"
    assert tool("tear.py", TOP / "examples/wallet.deck", 138, 10, "FF" * 8, "--deck", deck).returncode == 0
    assert lab("expect", deck.read_text(encoding="utf-8")).endswith("failed 0\n")


def test_a_write_that_a_line_does_not_make_is_none():
    shown = tool("tear.py", TOP / "examples/purse.deck", 21, 7)
    assert (shown.returncode, "has no write 7" in shown.stderr) == (1, True)


@pytest.mark.parametrize("aid", ["zz", "", "A0", "A00000000", "A0" * 17, "A0000000 1"])
def test_an_application_that_is_no_name_is_said(aid):
    shown = tool("tear.py", TOP / "examples/purse.deck", 21, 1, "--aid", aid)
    assert (shown.returncode, shown.stdout) == (2, "")
    assert shown.stderr.endswith(f"error: AID is 5 to 16 bytes in hexadecimal, not {aid or 'nothing'}\n")


def test_a_write_past_all_numbers_is_said():
    shown = tool("tear.py", TOP / "examples/purse.deck", 21, 1 << 32)
    assert shown.returncode == 2 and "K is 1 to 4,294,967,295" in shown.stderr


def test_a_line_that_a_deck_does_not_have_is_said():
    shown = tool("tear.py", TOP / "examples/purse.deck", 999, 1)
    assert (shown.returncode, "has no line 999: it has 33" in shown.stderr) == (2, True)


def test_a_picture_of_nothing_is_none():
    shown = tool("sweep_svg.py", "-")
    assert (shown.returncode, shown.stdout, "it is empty" in shown.stderr) == (2, "", True)


def test_failed_expectations_are_failed_cases(tmp_path):
    deck = tmp_path / "wrong.deck"
    deck.write_text(example("counter").replace("0001 9000", "0002 9000"), encoding="utf-8")
    written = tool("junit.py", "-", deck, text=lab("expect", deck.read_text(encoding="utf-8")))
    suite = xml.fromstring(written.stdout.split("\n", 1)[1])[0]
    assert written.returncode == 1
    assert (suite.get("tests"), suite.get("failures"), suite.get("errors")) == ("6", "1", "0")
    assert [case.get("name") for case in suite if case.find("failure") is not None] == ["line 11: #> 0002 9000"]


def test_a_failed_expectation_names_its_statement():
    text = labtexts.read_text(lab("expect", example("counter").replace("0001 9000", "0002 90*")))
    failed = text.failed[11]
    assert (failed.wanted, failed.was, failed.line, failed.statement) == ("0002 90*", "00019000", 10, "apdu 8001000002")
    text = labtexts.read_text(lab("expect", example("counter").replace("0001 9000", "0002 9000")))
    assert text.failed[11].was == "0001 9000"


def test_an_expectation_needs_no_blank():
    assert [(it.mark, it.text) for it in labtexts.remarks_of(["#>9000", " #> 90 00 ", "##>", "#@ allow a 1"])] == [
        ("#>", "9000"), ("#>", "90 00"), ("#@", "allow a 1")]


def test_a_deck_without_expectations_is_an_error():
    suite = xml.fromstring(tool("junit.py", "-", text=lab("expect", "format\npower\n")).stdout.split("\n", 1)[1])[0]
    assert (suite.get("errors"), suite[0].get("name")) == ("1", "line 0")


def test_a_line_that_must_be_whole_is_a_failed_case(tmp_path):
    deck = tmp_path / "wallet.deck"
    lines = example("wallet").splitlines(keepends=True)
    deck.write_text("".join([*lines[:138], "#! whole\n", *lines[138:]]), encoding="utf-8")
    text = lab("sweep", deck.read_text(encoding="utf-8"))
    assert [it.number for it in labtexts.read_text(text).swept if it.is_broken] == [138]
    suite = xml.fromstring(tool("junit.py", "-", deck, text=text).stdout.split("\n", 1)[1])[0]
    assert (suite.get("failures"), "not whole" in suite.find("testcase/failure").text) == ("1", True)
    assert ">138<title>not whole</title>" in tool("sweep_svg.py", "-", text=text).stdout


def test_a_rule_that_is_broken_is_a_failed_case(tmp_path):
    deck = tmp_path / "rules.deck"
    deck.write_text("format\npower\n#@ move power\n#@ allow a 1\n#@ allow b 1\n#@ on power gives * spend a 1\n#@ on power gives off* spend b 1\n",
                    encoding="utf-8")
    text = "depth 1 states 1\nbroken a after 2 lines\npower\npower\n"
    suite = xml.fromstring(tool("junit.py", "-", deck, text=text).stdout.split("\n", 1)[1])[0]
    assert [case.find("failure") is not None for case in suite] == [True, False]
    assert suite[0].find("failure").text == "power\npower"


RULES = "format\npower\n#@ move power\n#@ allow a 1\n#@ on power gives ready* spend a 0\n#@ on power gives none spend a 1\n"


@pytest.mark.parametrize("text, skipped", [("depth 1 states 0\nsilent line 6\nexplored states 1 tries 1 all\n", [False, True]),
                                           ("depth 1 states 1\nexplored states 2 tries 1 depth 1\n", [True, True])])
def test_what_was_not_explored_is_skipped_and_wants_a_look(tmp_path, text, skipped):
    deck = tmp_path / "rules.deck"
    deck.write_text(RULES, encoding="utf-8")
    made = tool("junit.py", "-", deck, text=text)
    suite = xml.fromstring(made.stdout.split("\n", 1)[1])[0]
    assert made.returncode == 0 and [case.find("skipped") is not None for case in suite] == skipped
    (tmp_path / "rules.explore").write_text(text, encoding="utf-8")
    (tmp_path / "explore.verdicts").write_text("0 rules.deck\n" if "all" in text else "6 rules.deck\n", encoding="utf-8")
    page = tool("report.py", tmp_path, "--decks", tmp_path)
    assert page.returncode == 0 and '<span class="look">' in page.stdout
    assert ("fits line 6" in page.stdout) == ("silent" in text)


def test_a_rule_that_is_not_proved_is_a_failed_case(tmp_path):
    deck = tmp_path / "rules.deck"
    deck.write_text("#@ app a\n#@ allow guesses 3\n#@ on turn CMPN* spend guesses 1\n#@ never abend\n", encoding="utf-8")
    text = "idle guesses 3: SB[2] 03\nbroken guesses line 3 at 002C ; look\nunknown 0100\nnot proved keys 12\n"
    suite = xml.fromstring(tool("junit.py", "-", deck, text=text).stdout.split("\n", 1)[1])[0]
    assert [case.find("failure") is not None for case in suite] == [True, False, True]
    (tmp_path / "rules.prove").write_text(text, encoding="utf-8")
    (tmp_path / "prove.verdicts").write_text("1 rules.deck\n", encoding="utf-8")
    page = tool("report.py", tmp_path, "--decks", tmp_path)
    assert page.returncode == 1 and "not proved keys 12: 2 lines" in page.stdout and "unknown 0100" in page.stdout


def test_a_mark_of_no_swept_line_fails(tmp_path):
    text = "line 4 not swept\nline 6 writes 6: before 1-4 after 5-6\nswept 1 writes 6 plays 16\n"
    assert tool("junit.py", "-", text=text).returncode == 1
    (tmp_path / "marks.sweep").write_text(text, encoding="utf-8")
    (tmp_path / "sweep.verdicts").write_text("1 marks.deck\n", encoding="utf-8")
    assert "1 mark of no swept line" in tool("report.py", tmp_path).stdout


def test_one_line_is_no_lines(tmp_path):
    (tmp_path / "one.sweep").write_text("line 6 writes 1: before 1-1\nswept 1 writes 1 plays 2\n", encoding="utf-8")
    (tmp_path / "sweep.verdicts").write_text("0 one.deck\n", encoding="utf-8")
    page = tool("report.py", tmp_path).stdout
    assert "1 line, 1 write<" in page and "</b>deck<" in page


def test_a_text_without_an_end_is_an_error():
    assert tool("junit.py", "-", text="line 4 writes 21: before 1-17 after 18-21\n").returncode == 1


def test_a_long_line_takes_rows_and_rows_of_one_word_are_one():
    line = labtexts.Swept(1, 700, [("before", 1, 600), ("after", 601, 700)])
    rows = sweep_svg.rows_of(line)
    assert [(first, last) for first, last, _ in rows] == [(1, 64), (65, 576), (577, 640), (641, 700)]
    assert rows[2][2] == [("before", 577, 600), ("after", 601, 640)]


def test_a_carriage_return_inside_a_line_ends_none():
    assert labtexts.lines_of("a\rb\r\nc\x0bd\n\n") == ["a\rb", "c\x0bd", ""]


def test_a_campaign_is_a_page_and_cases(tmp_path):
    for job in ("expect", "sweep"):
        verdicts = []
        for name in ("counter", "purse", "refused"):
            (tmp_path / f"{name}.{job}").write_text(lab(job, example(name)), encoding="utf-8")
            verdicts.append(f"{int(name == 'refused')} examples/{name}.deck\n")
        (tmp_path / f"{job}.verdicts").write_text("".join(verdicts), encoding="utf-8")
    page = tool("report.py", tmp_path, "--decks", TOP)
    assert page.returncode == 1 and "refused: line 4 BadLine" in page.stdout and page.stdout.rstrip().endswith("</html>")
    suites = xml.fromstring(tool("junit.py", "--campaign", tmp_path, "--decks", TOP).stdout.split("\n", 1)[1])
    assert [it.get("errors") for it in suites] == ["0", "0", "0", "0", "1", "1"]


@pytest.mark.parametrize("name", ["pin", "pin_proved"])
def test_the_purse_of_the_examples_is_the_proved_one(name):
    """Its section is assembled to the code of the laws of `example_purse`, and it is loaded as the application that they are about."""
    section = example(name).partition("app purse A000000100\n")[2].partition("end\n")[0].splitlines()
    data = "".join(line.split()[1] for line in section if line.startswith("DATA "))
    text = "\n".join(line for line in section if not line.startswith("DATA "))
    code = subprocess.run([program_path("melcard"), "asm"], input=text.encode(), stdout=subprocess.PIPE, check=True).stdout.decode()
    proved = (TOP / "crates" / "example_purse" / "src" / "purse.rt").read_text(encoding="utf-8").partition("const CODE")[2].partition("];")[0]
    assert code.replace("\n", "") == "".join(re.findall(r"0x(..)", proved))
    assert data == "03E8031234" and "\nload purse 7 1\n" in example(name)
