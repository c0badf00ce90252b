"""What tools/mel/mutate.py makes of a draft, and which of it survives.

It needs pytest, and the programs, built by tools/build or by `rt ci`.
"""

import json
import pathlib
import subprocess
import sys

import mutate
import pytest

TOP = pathlib.Path(__file__).resolve().parent.parent.parent
TOOLS = TOP / "tools" / "mel"
# A counter with a limit of 3, of which its deck tests the first count alone.
COUNTER = """format
power
app counter A000000101
STATIC count 1 00
CONST limit 3
        CMPB INS,0x01
        JUMP EQ,add
        EXITSW 0x6D00
add:    CMPB count,limit        ; the limit
        JUMP GE,full
        PRIM 3,2
        INCN count
        PRIM 3,1
        EXIT
full:   EXITSW 0x6985
end
load counter
select counter
apdu 80 01 0000
#> 9000
dump counter
#> static 01
"""


def tool(name, *words):
    """What a tool does."""
    return subprocess.run([sys.executable, str(TOOLS / name), *map(str, words)], stdout=subprocess.PIPE, stderr=subprocess.PIPE, text=True,
                          check=False)


@pytest.fixture(name="draft")
def counter_draft(tmp_path):
    """A file with the counter."""
    path = tmp_path / "counter.draft"
    path.write_text(COUNTER, encoding="utf-8")
    return path


def made_of(text):
    """The mutants of a draft: the number of the line, what was changed, and the changed lines."""
    return [(it.numbers[0], it.what, it.changed) for it in mutate.mutants_of(text.splitlines(), [])]


def test_each_line_has_its_mutants():
    made = made_of(COUNTER)
    assert (4, "00 is 01", {4: "STATIC count 1 01"}) in made
    assert (5, "3 is 4", {5: "CONST limit 4"}) in made and (5, "3 is 2", {5: "CONST limit 2"}) in made
    assert (7, "EQ is NE", {7: "        JUMP NE,add"}) in made
    assert (8, "0x6D00 is 0x6D01", {8: "        EXITSW 0x6D01"}) in made
    assert (9, "left out", {9: "add:            ; the limit"}) in made
    assert (12, "exchanged with line 13", {12: "        PRIM 3,1", 13: "        INCN count"}) in made
    assert (11, "all protection dropped", {11: "        ", 13: "        "}) in made


def test_a_number_in_a_name_or_an_offset_is_no_constant():
    text = "app a A000000101\nx1: LOAD SB[2]\n JUMP EQ,x1\n LOAD y+2\n PUSHB y2.size\nend\n"
    assert {what for _, what, _ in made_of(text)} == {"left out", "EQ is NE", *(f"exchanged with line {it}" for it in (3, 4, 5))}


def test_a_section_can_be_chosen():
    lines = "app a A000000101\n EXIT\nend\napp b A000000102\n EXIT\nend\n".splitlines()
    assert [it.numbers for it in mutate.mutants_of(lines, ["b"])] == [[5]]


def test_what_no_expectation_sees_survives(draft, tmp_path):
    into = tmp_path / "campaign"
    done = tool("mutate.py", draft, "--into", into)
    assert done.returncode == 1 and " survive; " in done.stdout, done.stderr
    rows = [json.loads(line) for line in (into / "counter.mutants").read_text(encoding="utf-8").splitlines()]
    left = {(it["line"], it["what"]): it["reason"] for it in rows if it["found"] is None}
    assert left[5, "3 is 2"] == mutate.ALIKE
    assert left[15, "0x6985 is 0x6984"] == mutate.NOT_RUN
    assert left[11, "all protection dropped"] == mutate.ALIKE
    assert (12, "left out") not in left and next(it for it in rows if (it["line"], it["what"]) == (12, "left out"))["found"] == "expect"
    assert "15: full:   EXITSW 0x6985\n" in done.stdout


def test_a_result_that_nothing_expects_is_said(draft):
    draft.write_text(COUNTER.replace("#> static 01\n", ""), encoding="utf-8")
    done = tool("mutate.py", draft)
    shown = done.stdout.split("line 12: INCN count\n")[1].splitlines()
    assert shown[0] == f"    left out: {mutate.SHOWN}"


@pytest.mark.parametrize("words", [["--jobs", "0"], ["--jobs", "-1"], ["--explore", "0"], ["--seconds", "0"], ["--seconds", "nan"]])
def test_a_number_out_of_range_is_a_sentence(draft, tmp_path, words):
    done = tool("mutate.py", draft, "--into", tmp_path / "campaign", *words)
    assert (done.returncode, done.stdout) == (2, "") and not (tmp_path / "campaign").exists()
    assert done.stderr.endswith("error: --jobs and --explore are 1 at least, and --seconds is more than 0\n")


def test_a_draft_without_tests_is_no_work(draft):
    draft.write_text(COUNTER.replace("#>", "# >"), encoding="utf-8")
    done = tool("mutate.py", draft)
    assert done.returncode == 1 and "expect is left out" in done.stderr
    draft.write_text("format\n nonsense\n", encoding="utf-8")
    done = tool("mutate.py", draft)
    assert done.returncode == 2 and "line 2 BadLine" in done.stderr


def test_the_survivors_are_a_part_of_the_report(draft, tmp_path):
    into = tmp_path / "campaign"
    tool("mutate.py", draft, "--into", into)
    (into / "counter.expect").write_text("expected 2 failed 0\n", encoding="utf-8")
    (into / "expect.verdicts").write_text("0 counter.draft\n", encoding="utf-8")
    page = tool("report.py", into, "--decks", tmp_path)
    assert page.returncode == 0 and "<h2>Mutants</h2>" in page.stdout and "EXITSW 0x6985" in page.stdout
