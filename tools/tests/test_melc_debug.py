"""An application in C in the debugger, in films, and in `mel`: lines of C, steps forward and back, and locals by their names.

It needs pytest, pycparser, and the programs, built by tools/build or by `rt ci`.
"""

import json
import pathlib
import re
import shutil
import subprocess
import sys

import dap
import pytest

TOP = pathlib.Path(__file__).resolve().parent.parent.parent
ADAPTER = TOP / "tools" / "mel" / "debug.py"
LOOP = """#include <multos.h>
#pragma attribute("aid", "A0 00 00 03 09")
#pragma melstatic
WORD sum;
#pragma melpublic 0
BYTE data[4];

static WORD twice(WORD x)
{
    return x + x;
}

void main(void)
{
    for (BYTE i = 0; i < 3; i++) {
        WORD more = data[i];
        sum += more;
    }
    sum = twice(sum);
    sum = twice(sum);
}
"""


@pytest.fixture(name="badge")
def _badge(tmp_path):
    for ending in (".c", ".tests", ".rules"):
        shutil.copy(TOP / "examples" / f"badge{ending}", tmp_path)
    return tmp_path / "badge.c"


@pytest.fixture(name="client")
def _client():
    with dap.Client(ADAPTER) as client:
        yield client


def line_of(text, part):
    """The number of the first line that has a part."""
    return next(number for number, line in enumerate(text.splitlines(), 1) if part in line)


def test_a_breakpoint_and_steps_in_badge(client, badge):
    text = badge.read_text(encoding="utf-8")
    tries = line_of(text, "tries--;")
    stop = client.start(badge, lines=[tries])
    assert stop["reason"] == "breakpoint" and client.frames()[0] == ("show", tries)
    assert client.scope("Static")["tries"] == "03 (3)"
    client.move("stepIn")
    assert client.frames()[0] == ("show", tries + 1) and client.scope("Static")["tries"] == "02 (2)"
    client.move("stepBack")
    assert client.frames()[0] == ("show", tries) and client.scope("Static")["tries"] == "03 (3)"


def test_locals_of_a_loop_and_of_a_routine(client, tmp_path):
    path = tmp_path / "loop.c"
    path.write_text(LOOP, encoding="utf-8")
    (tmp_path / "loop.tests").write_text("select loop\napdu 80 01 0000 (010203)\n", encoding="utf-8")
    client.start(path, lines=[line_of(LOOP, "sum += more")])
    assert client.scope("Locals") == {"i": "00 (0)", "more": "0001 (1)"}
    client.move("continue")
    assert client.scope("Locals") == {"i": "01 (1)", "more": "0002 (2)"}
    client.move("continue")
    while client.frames()[0][0] != "twice":
        client.move("stepIn")
    assert client.frames()[0][1] == line_of(LOOP, "return x + x") and client.scope("Locals") == {"x": "0006 (6)"}
    client.move("stepOut")
    assert client.frames()[0] == ("main", line_of(LOOP, "sum = twice(sum);"))


def mel(*words, at, text=""):
    """What `mel` does."""
    return subprocess.run([sys.executable, "-B", str(TOP / "tools" / "mel" / "mel"), *map(str, words)], input=text, cwd=at, stdout=subprocess.PIPE,
                          stderr=subprocess.PIPE, text=True, check=False)


def test_mel_takes_a_file_in_c(badge):
    done = mel("test", "badge.c", "--only", "check", "--only", "expect", "--only", "prove", "--only", "cover", at=badge.parent)
    assert done.returncode == 0 and not done.stderr, done.stdout + done.stderr
    assert re.search(r"the branch of badge\.c:\d+ went one way alone$", done.stdout, re.MULTILINE) and "of line" not in done.stdout
    text = badge.read_text(encoding="utf-8")
    badge.write_text(text.replace("tries--;", "tries = tries * tries;"), encoding="utf-8")
    done = mel("test", "badge.c", at=badge.parent)
    assert done.returncode == 2 and done.stderr.startswith(f"badge.c:{line_of(text, 'tries--;')}:")


def test_a_film_shows_c(badge):
    page = mel("film", "badge.c", 6, at=badge.parent).stdout
    told = json.loads(re.search(r'<script[^>]*>(\{"title".*)</script>', page)[1].replace("\\u003C", "<"))
    text = badge.read_text(encoding="utf-8").splitlines()
    assert told["source"][:len(text)] == text
    lines = [it["line"] for it in told["turns"]]
    assert line_of("\n".join(text), "tries--;") in lines and told["source"][lines[-1] - 1].startswith("apdu 80 20")
