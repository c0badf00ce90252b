"""`mel` from a new application to its tests, at a terminal and without one.

It needs pytest, and the programs, built by tools/build or by `rt ci`; GNU parallel and argcomplete are tried if they are there.
"""

import json
import os
import pathlib
import pty
import re
import shutil
import signal
import subprocess
import sys
import time
import xml.etree.ElementTree as xml

import pytest
from card import program_path

TOP = pathlib.Path(__file__).resolve().parent.parent.parent
MEL = TOP / "tools" / "mel" / "mel"
PURSE = TOP / "examples" / "purse.draft"
JOBS = ["explain", "check", "expect", "sweep", "explore", "prove", "cover", "mutate"]


def mel(*words, at=TOP, text="", **more):
    """What `mel` does."""
    return subprocess.run([sys.executable, "-B", str(MEL), *map(str, words)], input=text, cwd=at, env={**os.environ, **more}, stdout=subprocess.PIPE,
                          stderr=subprocess.PIPE, text=True, check=False)


def verdicts(done):
    """The verdicts that a test wrote, by job."""
    rows = (re.match(r"(\w+) +(passed|FAILED|look|left out) ", f"{line} ") for line in done.stdout.splitlines())
    return {row[1]: row[2] for row in rows if row}


@pytest.fixture(name="badge")
def _badge(tmp_path):
    made = mel("new", "badge", at=tmp_path)
    assert (made.returncode, made.stderr) == (0, "")
    return tmp_path / "badge"


def change(folder, old, new, count=1):
    """Changes the draft of a folder."""
    path = next(folder.glob("*.draft"))
    text = path.read_text(encoding="utf-8")
    assert text.count(old) >= 1
    path.write_text(text.replace(old, new, count), encoding="utf-8")


# ---- a new application


def test_a_new_application_passes_all_jobs(badge):
    done = mel("test", "--strict", "--page", "page.html", "--junit", "cases.xml", at=badge)
    assert (done.returncode, done.stderr) == (0, "") and verdicts(done) == dict.fromkeys(JOBS, "passed")
    assert done.stdout.splitlines()[-1].startswith("badge.draft: passed (")
    suites = xml.parse(badge / "cases.xml").getroot()
    assert [it.get("name") for it in suites] == [f"badge.{job}" for job in JOBS]
    assert all(it.get("failures") == it.get("errors") == "0" and it.get("skipped") is None for it in suites)
    page = (badge / "page.html").read_text(encoding="utf-8")
    assert page.rstrip().endswith("</html>") and all(f"<td>{job}</td>" in page for job in JOBS) and "<svg" in page and 'href="badge.info"' not in page


def test_what_is_made_runs_what_is_there(badge):
    assert sorted(str(it.relative_to(badge)) for it in badge.rglob("*") if it.is_file()) == [
        ".github/workflows/test.yml", ".gitlab-ci.yml", "README.md", "badge.draft"]
    for name in (".github/workflows/test.yml", ".gitlab-ci.yml"):
        words = re.search(r"mel (test .*)", (badge / name).read_text(encoding="utf-8"))[1].split()
        assert mel(*words, "--without", "mutate", at=badge).returncode == 0 and (badge / "report.xml").is_file()
        (badge / "report.xml").unlink()
    for command in re.findall(r"`mel (\w+)", (badge / "README.md").read_text(encoding="utf-8")):
        assert mel(command, "--help").returncode == 0


@pytest.mark.parametrize("words, why", [(["1st"], "no name of an application"), (["SB"], "no name of an application"), (["ab", "--aid", "00"], "no AID"),
                                        (["a" * 33], "no name"), (["badface0de"], "reads as an AID"), (["x", "--into", "/proc/none/x"], "cannot be written")])
def test_what_is_no_application_is_a_sentence(tmp_path, words, why):
    done = mel("new", *words, at=tmp_path)
    assert done.returncode == 2 and why in done.stderr and done.stderr.count("\n") == 1 and list(tmp_path.iterdir()) == []


def test_a_folder_that_is_there_is_kept(badge):
    change(badge, "EXITSW 0x6983", "EXITSW 0x6984")
    before = (badge / "badge.draft").read_text(encoding="utf-8")
    done = mel("new", "badge", at=badge.parent)
    assert (done.returncode, done.stderr) == (2, "mel new: badge is there already\n")
    assert (badge / "badge.draft").read_text(encoding="utf-8") == before


# ---- tests


# A change of the new application, and the jobs that fail or want a look of it.
BROKEN = {
    "no instruction": (("TESTN left", "TESTZ left"), {"explain": "FAILED"}),
    "a stack that does not fit": (("LOAD left", "POPB\n        LOAD left"), {"check": "FAILED"}),
    "another answer": (("EXITSW 0x6983", "EXITSW 0x6984"), {"expect": "FAILED"}),
    "counted twice": (("        LOAD left", "        DECN left\n        LOAD left"), {"prove": "FAILED", "sweep": "FAILED", "explore": "FAILED"}),
    "a rule without an end": (("#@ never abend", "#@ never end"), {"prove": "FAILED", "explore": "FAILED"}),
    "a line that is not run": (("#> 6D00", "#> 6D00\n#@ never abend"), {"prove": "FAILED"}),
    "code that nothing reaches": (("length: EXITSW 0x6700", "length: EXITSW 0x6700\nnever:  EXIT\n        JUMP ALL,never"), {}),
}


@pytest.mark.parametrize("name", [it for it in BROKEN if it != "code that nothing reaches"])
def test_what_is_broken_fails(badge, name):
    (old, new), due = BROKEN[name]
    change(badge, old, new)
    done = mel("test", "--without", "mutate", "--junit", "cases.xml", at=badge)
    found = verdicts(done)
    assert done.returncode == 1 and {job: found[job] for job in due} == due, done.stdout
    assert f"FAILED: " in done.stdout.splitlines()[-1]
    suites = {it.get("name"): it for it in xml.parse(badge / "cases.xml").getroot()}
    for job, verdict in found.items():
        assert (suites[f"badge.{job}"].get("failures"), suites[f"badge.{job}"].get("errors")) != ("0", "0") if verdict == "FAILED" else True, job


def test_a_refused_draft_is_tried_no_further(badge):
    change(badge, "SESSION" if "SESSION" in (badge / "badge.draft").read_text(encoding="utf-8") else "STATIC left 1 03", "STATIC left one 03")
    done = mel("test", at=badge)
    assert done.returncode == 1 and verdicts(done) == {"explain": "FAILED", **dict.fromkeys(JOBS[1:], "left out")}
    assert re.search(r"^    badge\.draft:5:13: BadNumber: ", done.stdout, re.MULTILINE)


def test_what_wants_a_look_fails_if_it_is_strict(badge):
    change(badge, "apdu 80 11 0000\n#> 6D00\n", "")
    done = mel("test", "--without", "mutate", at=badge)
    assert done.returncode == 0 and verdicts(done)["cover"] == "look" and "    no command ran line 8\n" in done.stdout
    assert mel("test", "--without", "mutate", "--strict", at=badge).returncode == 1


def test_a_mutant_that_survives_wants_a_look(badge):
    change(badge, "#> 6983\n", "")
    done = mel("test", "--only", "mutate", at=badge)
    assert done.returncode == 0 and verdicts(done) == {"mutate": "look"} and "    line 17: none:   EXITSW 0x6983\n" in done.stdout


def test_what_a_draft_has_nothing_for_is_left_out(tmp_path):
    (tmp_path / "bare.draft").write_text("format\npower\n", encoding="utf-8")
    done = mel("test", at=tmp_path)
    found = verdicts(done)
    assert done.returncode == 0 and {job for job, verdict in found.items() if verdict == "left out"} == set(JOBS) - {"explain", "sweep"}
    assert "the draft has no expectation" in done.stdout


def test_several_drafts_are_tried_at_once(badge):
    shutil.copy(PURSE, badge / "purse.draft")
    done = mel("test", "--without", "mutate", "--jobs", "2", "--junit", "cases.xml", at=badge)
    assert done.returncode == 0 and done.stdout.splitlines()[-1] == "2 drafts, 0 failed"
    assert {it.get("name").split(".")[0] for it in xml.parse(badge / "cases.xml").getroot()} == {"badge", "purse"}
    change(badge, "EXITSW 0x6983", "EXITSW 0x6984")
    done = mel("test", ".", "--without", "mutate", at=badge)
    assert done.returncode == 1 and done.stdout.splitlines()[-1] == "2 drafts, 1 failed" and "badge.draft: FAILED: expect" in done.stdout


@pytest.mark.skipif(shutil.which("parallel") is None, reason="there is no GNU parallel")
def test_drafts_are_tried_on_other_machines(badge):
    shutil.copy(PURSE, badge / "purse.draft")
    change(badge, "EXITSW 0x6983", "EXITSW 0x6984")
    done = mel("test", "--without", "mutate", "--sshlogin", "2/:", "--remote", f"{sys.executable} -B {MEL}", "--junit", "cases.xml", "--page", "page.html",
               at=badge)
    assert done.returncode == 1 and done.stdout.splitlines()[-1] == "2 drafts, 1 failed", done.stderr
    suites = {it.get("name"): it.get("failures") for it in xml.parse(badge / "cases.xml").getroot()}
    assert (suites["badge.expect"], suites["purse.expect"], suites["purse.sweep"]) == ("1", "0", "0")
    done = mel("test", "--sshlogin", ":", "--remote", "echo", at=badge)
    assert done.returncode == 2 and "sent no result of mel" in done.stderr


def test_without_parallel_there_is_a_sentence(badge):
    done = mel("test", "--sshlogin", ":", at=badge, PATH=str(badge))
    assert (done.returncode, done.stderr) == (2, "mel test: --sshlogin needs GNU parallel (Debian: parallel), which is not installed here\n")


def test_json_is_a_line_for_each_draft(badge):
    done = mel("test", "--json", "--only", "expect", "--only", "cover", at=badge)
    assert done.returncode == 0 and done.stdout.count("\n") == 1
    assert [(it["job"], it["verdict"], it["status"]) for it in json.loads(done.stdout)["jobs"]] == [("expect", "passed", 0), ("cover", "passed", 0)]


@pytest.mark.parametrize("words, why", [(["nofile"], "nofile cannot be read: No such file or directory"), ([], "has no draft: `mel new NAME` makes one"),
                                        (["--jobs", "0"], "are 1 at least"), (["--only", "expect", "--without", "expect"], "no job is left to run"),
                                        (["a.draft", "b/a.draft"], "have one name")])
def test_what_cannot_be_tried_is_a_sentence(tmp_path, words, why):
    done = mel("test", *words, at=tmp_path)
    assert done.returncode == 2 and why in done.stderr and done.stderr.startswith("mel test: ") and done.stderr.count("\n") == 1


def test_a_change_is_tried_again(badge):
    watched = subprocess.Popen([sys.executable, "-B", str(MEL), "test", "--watch", "--only", "expect"], cwd=badge, stdout=subprocess.PIPE, text=True,
                               preexec_fn=lambda: signal.signal(signal.SIGINT, signal.default_int_handler))
    try:
        seen = [next(line for line in watched.stdout if line.startswith("badge.draft: "))]
        assert next(watched.stdout).startswith("waiting for a change")
        change(badge, "EXITSW 0x6983", "EXITSW 0x6984")
        seen.append(next(line for line in watched.stdout if line.startswith("badge.draft: ")))
        assert next(watched.stdout).startswith("waiting for a change")
        watched.send_signal(signal.SIGINT)
        assert watched.wait(30) == 1 and "passed" in seen[0] and "FAILED: expect" in seen[1]
    finally:
        watched.kill()
        watched.communicate()


# ---- at a terminal


def at_terminal(*words, at, **more):
    """What `mel` writes to a terminal, and its status."""
    ours, its = pty.openpty()
    child = subprocess.Popen([sys.executable, "-B", str(MEL), *map(str, words)], cwd=at, stdin=its, stdout=its, stderr=its,
                             env={**os.environ, "TERM": "xterm", **more})
    os.close(its)
    found = b""
    try:
        while piece := os.read(ours, 65536):
            found += piece
    except OSError:
        pass
    os.close(ours)
    return found.decode(), child.wait()


def slow(folder, name):
    """A program that takes two seconds longer."""
    path = folder / name
    path.write_text(f'#!/bin/sh\nsleep 2\nexec {program_path(name)} "$@"\n', encoding="utf-8")
    path.chmod(0o755)
    return str(path)


def test_colour_and_progress_are_for_a_terminal_alone(badge, tmp_path):
    env = {"MELLAB": slow(tmp_path, "mellab")}
    shown, status = at_terminal("test", "--only", "sweep", at=badge, **env)
    assert status == 0 and "\033[32mpassed" in shown and re.search(r"\rsweep \d+ s, ", shown), shown
    shown, status = at_terminal("test", "--only", "sweep", at=badge, NO_COLOR="1")
    assert status == 0 and "\033" not in shown
    done = mel("test", "--only", "sweep", at=badge, **env)
    assert "\033" not in done.stdout and done.stderr == ""


# ---- play, debug, prove


def test_a_play_has_each_statement_with_its_result(badge):
    done = mel("play", "badge.draft", at=badge)
    assert done.returncode == 0 and re.search(r"^ +26 apdu 80 10 0000 01 +029000$", done.stdout, re.MULTILINE)
    raw = mel("play", "badge.draft", "--raw", at=badge).stdout
    assert "26 029000\n" in raw and len(raw.splitlines()) == len(done.stdout.splitlines())
    assert "> 1 0000 CMPB PT[-12],16 " in mel("play", "badge.draft", "--trace", at=badge).stdout
    change(badge, "select badge", "selekt badge")
    done = mel("play", "badge.draft", at=badge)
    assert (done.returncode, done.stdout) == (2, "") and "badge.draft:24:1: BadLine" in done.stderr


def test_a_play_is_gone_through_at_a_terminal(badge):
    done = mel("debug", "badge.draft", at=badge, text="b use\nc\nleft\nw left\nc\np\nleft == 3\nk\nu\nfoo bar\nt\nv\nl\nh\nq\n")
    assert (done.returncode, done.stderr) == (0, ""), done.stderr
    for line in ("use: line 9", "stopped: function breakpoint", "03 (3)", "left was changed by DECN SB[0],1 in line 13", "the play without a cut",
                 "foo bar is no expression", ">  13          DECN left"):
        assert line in done.stdout, done.stdout
    assert re.search(r"^\(mel\) line 26, power cut in write \d: ", done.stdout, re.MULTILINE)
    assert mel("debug", "badge.draft", at=badge, text="").returncode == 0
    done = mel("debug", "badge.draft", "--line", "999", at=badge, text="")
    assert done.returncode == 1 and done.stderr == "mel debug: badge.draft: line 999 is no statement\n"
    change(badge, "select badge", "selekt badge")
    done = mel("debug", "badge.draft", at=badge, text="c\n")
    assert (done.returncode, done.stderr) == (1, f"mel debug: {badge.resolve()}/badge.draft: line 24 BadLine\n") or done.stderr == (
        "mel debug: badge.draft: line 24 BadLine\n")


def test_without_a_draft_it_is_the_adapter():
    import dap

    class Mel(dap.Client):
        """The adapter as `mel debug` starts it."""

        def __init__(self):
            super().__init__(MEL)

    ran = subprocess.run([sys.executable, "-B", str(MEL), "debug"], stdin=subprocess.DEVNULL, stdout=subprocess.PIPE, check=False)
    assert ran.returncode == 0
    content = b'{"seq":1,"type":"request","command":"initialize"}'
    ran = subprocess.run([sys.executable, "-B", str(MEL), "debug"], input=b"Content-Length: %d\r\n\r\n%s" % (len(content), content),
                         stdout=subprocess.PIPE, check=False)
    assert b"supportsStepBack" in ran.stdout


def test_proofs_are_written_and_are_a_page(badge):
    done = mel("prove", "badge.draft", "--page", "page.html", at=badge)
    assert (done.returncode, done.stdout.splitlines()[-1]) == (0, "proved keys 179") and "left" in (badge / "page.html").read_text(encoding="utf-8")
    change(badge, "#@ allow uses 3", "#@ allow uses 2")
    assert mel("prove", "badge.draft", at=badge).returncode == 1
    done = mel("prove", PURSE)
    assert done.returncode == 2 and "has no rules to prove" in done.stderr


# ---- tools, C, the version


def test_tools_are_words_of_mel(badge):
    assert "3 commands\n" in mel("cost", PURSE).stdout
    assert mel("film", PURSE, 23).stdout.rstrip().endswith("</html>")
    assert mel("film", "--help").stdout.startswith("usage: mel film ")
    assert (mel("film").returncode, mel("watch").returncode, mel("nothing").returncode, mel().returncode) == (2, 2, 2, 2)
    assert mel("watch", sys.executable, "-c", "raise SystemExit(7)").returncode == 7
    refused = mel("reader", "no.deck")
    assert refused.returncode == 2 and "No such file" in refused.stderr and "Traceback" not in refused.stderr
    env = {**os.environ, "PYTHONPATH": str(TOP / "tools")}
    for words in (["mel.cost", str(PURSE)], ["mel", "cost", str(PURSE)]):
        done = subprocess.run([sys.executable, "-B", "-m", *words], env=env, stdout=subprocess.PIPE, text=True, check=False)
        assert done.stdout.endswith("3 commands\n")


MELC = '''"""A compiler that knows one file."""
import sys
def main(words):
    if "wrong" in open(words[0]).read():
        print("app.c:1:1: error: wrong", file=sys.stderr)
        return 1
    assert words[1] == "-o"
    print("compiled")
    open(words[2], "w").write(open("badge.draft").read().partition("# Commands.")[0])
    return 0
'''


def test_an_application_in_c_is_compiled_first(badge, tmp_path):
    (tmp_path / "melc.py").write_text(MELC, encoding="utf-8")
    (badge / "app.c").write_text("void main(void) {}\n", encoding="utf-8")
    draft = (badge / "badge.draft").read_text(encoding="utf-8")
    commands, rules = draft.partition("# Commands.")[2].split("# Rules", 1)
    (badge / "app.tests").write_text("# Commands." + commands, encoding="utf-8")
    (badge / "app.rules").write_text("# Rules" + rules, encoding="utf-8")
    done = mel("test", "app.c", "--without", "mutate", at=badge, PYTHONPATH=str(tmp_path))
    assert done.returncode == 0 and verdicts(done) == dict.fromkeys(JOBS[:-1], "passed"), done.stdout + done.stderr
    assert "compiled" not in done.stdout
    assert "stopped: entry" in mel("debug", "app.c", at=badge, PYTHONPATH=str(tmp_path), text="q\n").stdout
    assert mel("film", "app.c", 26, at=badge, PYTHONPATH=str(tmp_path)).stdout.rstrip().endswith("</html>")
    (badge / "app.c").write_text("wrong\n", encoding="utf-8")
    done = mel("test", "app.c", at=badge, PYTHONPATH=str(tmp_path))
    assert done.returncode == 2 and done.stderr == "app.c:1:1: error: wrong\nmel test: app.c is refused by melc\n"


@pytest.mark.parametrize("command", ["test", "debug", "play", "prove", "film"])
def test_without_melc_there_is_a_sentence(tmp_path, command):
    (tmp_path / "melc.py").write_text("raise ImportError('none')\n", encoding="utf-8")
    (tmp_path / "app.c").write_text("void main(void) {}\n", encoding="utf-8")
    done = mel(command, "app.c", *(["3"] if command == "film" else []), at=tmp_path, PYTHONPATH=str(tmp_path))
    assert (done.returncode, done.stdout) == (2, "")
    assert done.stderr == f"mel {command}: app.c is written in C, and melc is not installed here\n"


def test_the_version_has_the_programs():
    done = mel("--version")
    assert done.returncode == 0 and done.stdout.startswith("mel ")
    assert f"mellab {program_path('mellab')}" in done.stdout


def completed(line):
    """The words with which a line goes on."""
    script = f"source {TOP}/tools/mel/completion/mel.bash; COMP_LINE='{line}'; COMP_POINT=${{#COMP_LINE}}; COMP_TYPE=9; _mel '{MEL}'; printf '%s\\n' \"${{COMPREPLY[@]}}\""
    return subprocess.run(["bash", "-c", script], stdout=subprocess.PIPE, text=True, check=True).stdout.split()


def test_words_are_completed():
    python = shutil.which("python3")
    if subprocess.run([python, "-c", "import argcomplete"], stderr=subprocess.DEVNULL, check=False).returncode:
        assert completed("mel te") == []
        pytest.skip("python3 has no argcomplete")
    assert sorted(completed("mel te")) == ["tear", "test"]
    assert completed("mel test --only sw") == ["sweep"]
    assert sorted(completed("mel film --")) == ["--fill", "--help", "--title"]
    assert completed("mel rules gr") == ["grows"]
