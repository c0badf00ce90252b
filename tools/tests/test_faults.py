"""`mel check`: each form of a wrong rule, what follows from one refused line, limits, and warnings.

It needs pytest, and the programs, built by tools/build or by `rt ci`.
"""

import pathlib

import faults
import pytest
from sources import Source

HEAD = """format
power
app badge A000000001
STATIC left 1 03
STATIC many 2 0000
        CMPB INS,0x10
        JUMP EQ,use
        EXITSW 0x6D00
use:    DECN left
        INCN many
        EXIT
end
load badge
select badge
#@ app badge
#@ allow uses 3
"""


def found(text):
    """What is wrong with a draft: line, column, cause and text."""
    return [(it.line, it.column, it.cause, it.text) for it in faults.faults_of(Source("a", pathlib.Path("a.draft"), text.encode()))[0]]


def test_nothing_is_wrong():
    assert found(HEAD + "#@ on turn *DECN {left},* spend uses 1\n#@ always {left} 0 3\n#@ never abend\n#@ move select badge\n") == []


@pytest.mark.parametrize("rule, column, cause, said", [
    ("#@ on turn *DECN {left},* need shwn 1", 32, "UnknownName", "there is uses"),
    ("#@ on turn *DECN {left},* need use 1", 32, "UnknownName", "write uses"),
    ("#@ on turn *DECN {left},* spends uses 1", 27, "BadLine", "write spend"),
    ("#@ on turns *DECN {left},* spend uses 1", 7, "BadLine", "write turn"),
    ("#@ alow guesses 3", 4, "BadLine", "write allow"),
    ("#@move power", 1, "BadLine", "put the blank in"),
    ("#@ allow guesses three", 18, "BadNumber", "write the number"),
    ("#@ allow guesses", 17, "BadLine", "the line ends here"),
    ("#@ allow uses 3", 10, "NameTwice", "take another"),
    ("#@ allow a-b 3", 10, "BadName", "letters, digits and underscores"),
    ("#@ never end", 10, "BadLine", "write abend"),
    ("#@ app nobody", 8, "UnknownName", "`load`"),
    ("#@ always SB[99] 0 3", 11, "OutOfRange", "static bytes"),
    ("#@ move dump badge", 9, "BadLine", "`#@ move power`")])
def test_a_wrong_rule_has_its_word_and_a_remedy(rule, column, cause, said):
    if rule.startswith("#@ app"):
        text = HEAD.replace("#@ app badge", rule)
        line = 15
    else:
        text, line = f"{HEAD}{rule}\n#@ never abend\n", 17
    (one,) = found(text)
    assert one[:3] == (line, column, cause) and said in one[3]


def test_each_wrong_rule_is_found():
    text = HEAD + "#@ allow guesses three\n#@ on turn *DECN* spend guesses 1\n#@ on turn *DECN* spends uses 1\n#@ never end\n"
    assert [it[0] for it in found(text)] == [17, 19, 20]


def test_what_follows_from_a_refused_declaration_is_in_its_line():
    one = found(HEAD.replace("STATIC left 1 03", "STATIC left one 03") + "#@ always {left} 0 3\n")
    assert [it[:3] for it in one] == [(4, 13, "BadNumber")] and one[0][3].endswith("; so lines 9, 17 have a name that is not declared")
    one = found(HEAD.replace("STATIC left 1 03", "STATIC left 1 03\nCONST bad x").replace("0x6D00", "bad"))
    assert [it[0] for it in one] == [5] and one[0][3].endswith("; so line 9 has a name that is not declared")


@pytest.mark.parametrize("line, said", [("STATIC x 5000", "at most 4096 static bytes, and with this line there are 5003"),
                                        ("SESSION x 300", "at most 256 session bytes, and with this line there are 300"),
                                        ("PUBLIC x 1040 2", "at most 1041 public bytes, and with this line there are 1042"),
                                        ("STATIC x 2 01", "expected 2 bytes in hexadecimal, 4 digits, and there are 2"),
                                        ("SESSION x 0", "a size of 1 at least"), ("CONST x 70000", "a number of -32768 to 65535")])
def test_a_limit_is_named(line, said):
    one = found(HEAD.replace("STATIC many 2 0000", f"STATIC many 2 0000\n{line}"))
    assert one[0][0] == 6 and one[0][2] == "OutOfRange" and said in one[0][3]


def test_code_that_is_too_long_is_one_line():
    code = " INCN many\n" * 2100
    one = [it for it in found(HEAD.replace("        INCN many\n", code)) if it[2] != "warning"]
    assert [it[2] for it in one] == ["TooLong"] and "lines of code follow" in one[0][3]


def test_a_byte_order_mark_is_named():
    (one,) = found("\ufeff" + HEAD)
    assert one[:3] == (1, 1, "BadLine") and "byte order mark" in one[3]


@pytest.mark.parametrize("code, column, said", [("        CMPB Lc,4", 14, "write CMPW for both, or `Lc+1`"), ("        SETB many,3", 14, "`many+1`"),
                                                ("        EXITSW 0x1234", 16, "6xxx or 9xxx")])
def test_what_hardly_anyone_means_is_a_warning(code, column, said):
    (one,) = [it for it in found(HEAD.replace("        EXIT\n", f"{code}\n        EXIT\n")) if "way from the first" not in it[3]]
    assert one[:3] == (11, column, "warning") and said in one[3]


@pytest.mark.parametrize("code", ["        CMPB many+0,4", "        SETB left,3", "        CMPW many,3", "        EXITSW 0x9000"])
def test_what_is_meant_is_none(code):
    assert not [it for it in found(HEAD.replace("        EXIT\n", f"{code}\n        EXIT\n")) if "way from the first" not in it[3]]


def test_a_status_is_told(capsys):
    import terminal
    assert terminal.say_end("mellab", 5) == 5 and capsys.readouterr().err == "mel: mellab ended with status 5: out of memory\n"
    assert terminal.say_end("mellab", 1) == 1 and capsys.readouterr().err == ""
