"""tools/build builds what changed and nothing else, and tools/test takes a limit for no failure. Small stand-ins take the compiler's place."""

import importlib.machinery
import importlib.util
import subprocess
import sys
from pathlib import Path

import pytest

TOP = Path(__file__).resolve().parents[2]
sys.path.insert(0, str(TOP / "tools" / "dev"))

import kit as kits  # noqa: E402


def script(name):
    """A script of tools/, as a module."""
    loader = importlib.machinery.SourceFileLoader(f"tools_{name}", str(TOP / "tools" / name))
    made = importlib.util.module_from_spec(importlib.util.spec_from_loader(loader.name, loader))
    loader.exec_module(made)
    return made


@pytest.fixture
def top(tmp_path):
    """A repository of one program over one crate."""
    for name, file in (("low", "lib.rt"), ("apart", "lib.rt"), ("melcard", "main.rt")):
        folder = tmp_path / "crates" / name
        for part in ("src", "proofs"):
            (folder / part).mkdir(parents=True)
        (folder / "src" / file).write_text("fn some() {}\n", encoding="utf-8")
    (tmp_path / "crates.txt").write_text("low:\napart:\nmelcard: low\n", encoding="utf-8")
    return tmp_path


@pytest.fixture
def kit(tmp_path):
    """Files in the places of a kit's."""
    made = tmp_path / "a-kit"
    for part in kits.PARTS:
        (made / part).parent.mkdir(parents=True, exist_ok=True)
        (made / part).write_text(part, encoding="utf-8")
    (made / "KIT-ID").write_text("a kit\n", encoding="utf-8")
    return made


class Builder:
    """tools/build over stand-ins: a module is the text `module`, and a program is its bytes `program`."""

    def __init__(self, top, kit, monkeypatch):
        self.top, self.kit, self.script = top, kit, script("build")
        self.module, self.program, self.lowered, self.compiled = "module", b"program", 0, 0
        monkeypatch.setattr(self.script, "TOP", top)
        monkeypatch.setattr(self.script, "modules", self._modules)
        monkeypatch.setattr(self.script, "compiled", self._compiled)
        (top / "bin").mkdir()

    def _modules(self, kit, names, room):
        self.lowered += 1
        return [], {name: self.module for name in names}

    def _compiled(self, kit, name, words, module, room):
        self.compiled += 1
        return self.program, 1.0

    def build(self, is_anew=False):
        """Builds, and returns how often a program was lowered and compiled."""
        before = self.lowered, self.compiled
        self.script.build(self.kit, self.script.State(self.kit, self.top / "bin", is_anew), ["melcard"], 1)
        return self.lowered - before[0], self.compiled - before[1]


@pytest.fixture
def builder(top, kit, monkeypatch):
    return Builder(top, kit, monkeypatch)


def test_what_is_up_to_date_is_not_built(builder, capsys):
    assert builder.build() == (1, 1)
    assert (builder.top / "bin/melcard").read_bytes() == b"program"
    assert builder.build() == (0, 0)
    assert capsys.readouterr().out.rstrip().endswith("bin/melcard: up to date")
    assert builder.build(is_anew=True) == (1, 1)


@pytest.mark.parametrize("file", ["crates/melcard/src/main.rt", "crates/low/src/lib.rt", "crates/low/src/new.rt", "crates.txt", "a-kit/KIT-ID"])
def test_what_changed_is_built(builder, file):
    builder.build()
    text = {"crates.txt": "low:\napart:\nmelcard: low apart\n"}.get(file, "changed\n")
    builder.module = "other module"
    (builder.top / file).write_text(text, encoding="utf-8")
    assert builder.build() == (1, 1)
    assert builder.build() == (0, 0)


@pytest.mark.parametrize("file", ["crates/apart/src/lib.rt", "crates/low/proofs/Some.antt"])
def test_what_a_program_does_not_read_changes_nothing(builder, file):
    builder.build()
    (builder.top / file).write_text("changed\n", encoding="utf-8")
    assert builder.build() == (0, 0)


def test_a_module_that_is_as_before_is_not_compiled(builder):
    builder.build()
    (builder.top / "crates/low/src/lib.rt").write_text("// a remark\nfn some() {}\n", encoding="utf-8")
    assert builder.build() == (1, 0)
    assert builder.build() == (0, 0)


def test_a_program_that_is_not_the_one_that_was_built_is_built(builder):
    builder.build()
    (builder.top / "bin/melcard").write_bytes(b"another")
    assert builder.build() == (1, 1)
    (builder.top / "bin/melcard").unlink()
    assert builder.build() == (1, 1)


def test_a_running_program_is_renamed_over(builder):
    sleeper = Path("/bin/sleep").resolve()
    target = builder.top / "bin/melcard"
    target.write_bytes(sleeper.read_bytes())
    target.chmod(0o755)
    with subprocess.Popen([target, "60"]) as running:
        try:
            with pytest.raises(OSError):
                target.write_bytes(b"no")
            assert builder.build() == (1, 1)
            assert target.read_bytes() == b"program" and target.stat().st_mode & 0o777 == 0o755
            assert running.poll() is None
        finally:
            running.kill()
    assert [it.name for it in (builder.top / "bin").iterdir()] == ["melcard"]


# ---- limits


def test_a_limit_counts_the_processor_alone():
    over = kits.run(["sh", "-c", "while :; do :; done"], limit=1)
    assert over.is_over and over.seconds >= 0.8
    waits = kits.run(["sleep", "2"], limit=1)
    assert waits.status == 0 and not waits.is_over
    fails = kits.run(["sh", "-c", "echo no; exit 3"], limit=1)
    assert (fails.status, fails.text(), fails.is_over) == (3, "no\n", False)


OVER = "test long ... FAILED\n    checked: fault kind=signal: the program was killed by signal 24 (SIGXCPU)\n    run=fault\n"
WRONG = "test wrong ... FAILED\n    checked: fault kind=panic\n"


@pytest.mark.parametrize(("text", "seconds", "wanted"), [
    ("test result: ok. 3 passed; 0 failed; 0 ignored\n", 1, "passed"), (OVER, 9, "time limit"), ("run=none proved=no\n", 9, "time limit"),
    (OVER + WRONG, 9, "FAILED"), (WRONG, 9, "FAILED"), ("run=none proved=no\n", 1, "FAILED")])
def test_a_result_says_what_came_of_tests(text, seconds, wanted):
    status = 0 if wanted == "passed" else 4
    ran = kits.Ran(status, text.encode(), seconds, status != 0 and seconds >= 5)
    assert script("test").result_of_tests(ran)[0] == wanted


def test_tests_that_end_by_the_limit_are_no_failure(top, monkeypatch):
    tester = script("test")
    monkeypatch.setattr(tester, "TOP", top)
    monkeypatch.setattr(tester, "LIMIT", 1)
    rt = top / "rt"
    rt.write_text(f"#!/bin/sh\nsh -c 'while :; do :; done'\nprintf '%s' '{OVER}'\nexit 4\n", encoding="utf-8")
    rt.chmod(0o755)
    assert tester.try_tests(rt, "low")[0] == "time limit"


class Calls:
    """A call that gives one result after the other."""

    def __init__(self, *results):
        self.results, self.count = results, 0

    def __call__(self):
        self.count += 1
        return self.results[self.count - 1], "what came"


def runs(tester, top, *tasks, is_anew=False):
    """The runs of some tasks, after those that ended by the limit were run again."""
    made = tester.Runs(kits.Kept(top / "build/kept"), is_anew)
    for task in tasks:
        made.run(task)
    made.run_again()
    return made


def test_what_ended_by_the_limit_is_run_once_more(top, capsys):
    tester = script("test")
    late, never = Calls("time limit", "passed"), Calls("time limit", "time limit")
    made = runs(tester, top, tester.Task("tests-late", "1", late), tester.Task("tests-never", "1", never))
    assert (late.count, never.count) == (2, 2)
    assert made.end() == 2
    assert capsys.readouterr().out.endswith("1 passed (0 unchanged), 0 failed, 1 ended by the time limit (tried, not proved)\n")
    wrong = Calls("FAILED")
    assert runs(tester, top, tester.Task("tests-wrong", "1", wrong)).end() == 1 and wrong.count == 1


def test_what_passed_is_not_run_again(top):
    tester = script("test")
    calls = Calls("passed", "passed", "FAILED", "FAILED")
    for total, is_anew, count in (("1", False, 1), ("1", False, 1), ("1", True, 2), ("2", False, 3), ("2", False, 4)):
        made = runs(tester, top, tester.Task("tests-low", total, calls), is_anew=is_anew)
        assert calls.count == count
        assert made.end() == (1 if total == "2" else 0)
