"""Whatever is broken is a failed case of JUnit: each form of a rule, of an exploration and of a proof, with and without the deck.

It needs pytest, and the programs, built by tools/build or by `rt ci`.
"""

import pathlib
import subprocess
import sys
import xml.etree.ElementTree as xml

import junit
import labtexts
import pytest
from card import program_path

TOOL = pathlib.Path(__file__).resolve().parent.parent / "mel" / "junit.py"
COUNTER = """format
power
app a A000000001
DATA 0000
        INCN SB[0],2
        EXIT
end
load a 2 0
select A000000001
#@ app a
#@ move apdu 8001000000
"""
ABENDS = COUNTER.replace("        EXIT\n", "        POPB\n        EXIT\n")
# Each form of a rule: the deck, its rules, and the lines of those that are broken.
FORMS = {
    "spend": (COUNTER, "#@ allow n 1\n#@ on turn *INCN* spend n 1\n", [2]),
    "need": (COUNTER, "#@ allow n 0\n#@ on turn *INCN* need n 1\n", [2]),
    "abend": (ABENDS, "#@ never abend\n", [1]),
    "byte": (COUNTER, "#@ always SB[1] 0 1\n", [1]),
    "sum": (COUNTER, "#@ sum n 0\n#@ on turn *INCN* add n 2\n#@ always SB[0..1] = 0 + n\n", [3]),
    "answer": (COUNTER, "#@ allow n 0\n#@ on answer 80* gives 9000 need n 1\n", [2])}


def lab(words, deck):
    """What mellab writes of a deck."""
    return subprocess.run([program_path("mellab"), *words], input=deck, stdout=subprocess.PIPE, text=True, check=False).stdout


def cases(text, *deck):
    """The status of the tool, and its cases."""
    done = subprocess.run([sys.executable, str(TOOL), "-", *map(str, deck)], input=text, stdout=subprocess.PIPE, text=True, check=False)
    return done.returncode, list(xml.fromstring(done.stdout.split("\n", 1)[1])[0])


def lines_of(found, kind):
    """The numbers of the lines whose cases are of a kind."""
    return [int(it.get("name").split()[1].rstrip(":")) for it in found if it.find(kind) is not None]


@pytest.mark.parametrize("job", [["explore", "3"], ["prove"]])
@pytest.mark.parametrize("name", FORMS)
def test_a_broken_rule_is_a_failed_case_of_its_line(tmp_path, name, job):
    deck, rules, broken = FORMS[name]
    path = tmp_path / "a.deck"
    path.write_text(deck + rules, encoding="utf-8")
    text = lab(job, deck + rules)
    assert "broken " in text
    status, found = cases(text, path)
    assert (status, lines_of(found, "failure")) == (1, [deck.count("\n") + it for it in broken])
    status, found = cases(text)
    assert status == 1 and [it for it in found if it.find("failure") is not None]


def test_rules_that_hold_have_a_case_each(tmp_path):
    path = tmp_path / "a.deck"
    path.write_text(COUNTER + "#@ allow n 1\n#@ on command * allow n 1\n#@ on turn *INCN* spend n 1\n#@ never abend\n#@ always SB[0] 0 255\n",
                    encoding="utf-8")
    status, found = cases("depth 1 states 0\nexplored states 1 tries 1 all\n", path)
    assert status == 0 and [int(it.get("name").split()[1].rstrip(":")) for it in found] == [14, 15, 16]
    status, found = cases("depth 1 states 0\nsilent line 13\nexplored states 1 tries 1 all\n", path)
    assert (status, lines_of(found, "skipped")) == (0, [13])
    status, found = cases("depth 1 states 1\nexplored states 2 tries 1 depth 1\n", path)
    assert (status, lines_of(found, "skipped")) == (0, [14, 15, 16])


def test_the_other_rules_are_skipped_where_one_is_broken(tmp_path):
    path = tmp_path / "a.deck"
    path.write_text(COUNTER + "#@ allow n 1\n#@ on turn *INCN* spend n 1\n#@ never abend\n", encoding="utf-8")
    status, found = cases(lab(["explore", "3"], path.read_text(encoding="utf-8")), path)
    assert (status, lines_of(found, "failure"), lines_of(found, "skipped")) == (1, [13], [14])


@pytest.mark.parametrize("text", ["broken nobody after 0 lines\n", "broken nobody line 3 at 0010\nnot proved keys 3\n", "not proved keys 1000000\n",
                                  "unknown 0100\nnot proved keys 3\n", "line 9 expected 9000 was 6D00 (line 8 apdu 80)\nexpected 1 failed 1\n",
                                  "line 4 writes 6: before 1-4 torn 5-6\nswept 1 writes 6 plays 16\n"])
def test_what_is_broken_of_none_of_the_decks_lines_fails_too(tmp_path, text):
    path = tmp_path / "a.deck"
    path.write_text("format\npower\n#> ready 0\n#@ app a\n#@ never abend\n", encoding="utf-8")
    assert cases(text)[0] == 1
    if text.startswith(("not proved", "unknown")):
        assert cases(text, path)[0] == 1


@pytest.mark.parametrize("name", ["junit.py", "report.py"])
@pytest.mark.parametrize("content", [None, ""])
def test_a_campaign_without_texts_is_status_2(tmp_path, name, content):
    if content is not None:
        (tmp_path / "expect.verdicts").write_text(content, encoding="utf-8")
    words = ["--campaign", tmp_path] if name == "junit.py" else [tmp_path]
    for folder in (words, [*words[:-1], tmp_path / "none"]):
        done = subprocess.run([sys.executable, str(TOOL.with_name(name)), *map(str, folder)], stdout=subprocess.PIPE, stderr=subprocess.PIPE,
                              text=True, check=False)
        assert (done.returncode, done.stdout) == (2, "") and f"{folder[-1]} has no verdicts" in done.stderr


def test_a_draft_that_was_taken_for_a_deck_is_told_as_one():
    text = labtexts.read_text("line 4 UnknownWord\n")
    lines = ["format", "power", "app a A000000001", "STATIC left 1 03", "end"]
    assert list(junit.cases(text, lines, 1, False)) == [
        ("line 4: STATIC left 1 03", "error", "UnknownWord: this is a draft, of which `meldesk deck` makes the deck")]
    assert list(junit.cases(text, [*lines[:3], "STATI", "end"], 1, False)) == [("line 4: STATI", "error", "UnknownWord")]


def test_a_status_that_says_so_is_a_failure():
    text = labtexts.read_text("explored states 1 tries 1 all\n")
    assert [fault for _, fault, _ in junit.cases(text, [], 0, False)] == [None]
    assert [fault for _, fault, _ in junit.cases(text, [], 1, False)] == [None, "failure"]
    assert [fault for _, fault, _ in junit.cases(text, [], 5, False)] == [None, "error"]
