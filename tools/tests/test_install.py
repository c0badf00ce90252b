"""What tools/install and tools/dev/deb install: over a program that runs, where no folder can be made, and with a page for each command.

It needs pytest, and the programs, built by tools/build or by `rt ci`.
"""

import os
import pathlib
import re
import shutil
import subprocess

import pytest
from card import program_path

TOP = pathlib.Path(__file__).resolve().parent.parent.parent
NAMES = ("melcard", "melreader", "mellab", "meldesk")


def install(*words):
    """What the script does."""
    return subprocess.run([str(TOP / "tools" / "install"), *map(str, words)], stdout=subprocess.PIPE, stderr=subprocess.PIPE, text=True, check=False)


@pytest.fixture(name="programs", scope="module")
def _programs(tmp_path_factory):
    folder = tmp_path_factory.mktemp("programs")
    for name in NAMES:
        shutil.copy(program_path(name), folder / name)
    return folder


@pytest.fixture(name="root", scope="module")
def _root(tmp_path_factory, programs):
    folder = tmp_path_factory.mktemp("root")
    done = install("--programs", programs, "--root", folder, "--version", "7.1", "/usr")
    assert done.returncode == 0, done.stderr
    return folder


def test_a_program_that_runs_keeps_its_file(root, programs):
    installed = root / "usr" / "bin" / "melreader"
    before = installed.stat().st_ino
    with subprocess.Popen([str(installed)], stdin=subprocess.PIPE, stdout=subprocess.PIPE) as running:
        running.stdin.write(b"\0\1\4")
        running.stdin.flush()
        assert len(running.stdout.read(2)) == 2  # it runs
        done = install("--programs", programs, "--root", root, "--version", "7.2", "/usr")
        assert done.returncode == 0, done.stderr
        assert installed.stat().st_ino != before and f"/usr/bin/melreader" in os.readlink(f"/proc/{running.pid}/exe")
        running.stdin.close()
        assert running.wait(30) == 0
    assert not list(root.rglob("*.new"))
    assert subprocess.run([str(root / "usr/bin/mel"), "--version"], stdout=subprocess.PIPE, text=True, check=False).stdout.startswith("mel 7.2\n")


def test_each_command_has_a_page_and_completion(root):
    for command in (root / "usr" / "bin").iterdir():
        assert os.access(command, os.X_OK) and (root / "usr/share/man/man1" / f"{command.name}.1").is_file(), command.name
    page = (root / "usr/share/man/man1/mel.1").read_text(encoding="utf-8")
    paths = re.findall(r"/usr/share/[\w/.]*\w", page)
    assert paths and all((root / it.lstrip("/")).exists() for it in paths)
    assert (root / "usr/share/bash-completion/completions/mel").is_file() and (root / "usr/share/zsh/vendor-completions/_mel").is_file()
    assert not list(root.rglob("__pycache__")) or (root / "usr/share/melcard/mel/__pycache__").is_dir()


def test_mel_runs_where_it_is_installed(root, tmp_path):
    env = {name: value for name, value in os.environ.items() if name.upper() not in map(str.upper, NAMES)}
    run = [str(root / "usr/bin/mel")]
    assert subprocess.run([*run, "new", "badge"], cwd=tmp_path, env=env, stdout=subprocess.DEVNULL, check=False).returncode == 0
    done = subprocess.run([*run, "test", "--without", "mutate"], cwd=tmp_path / "badge", env=env, stdout=subprocess.PIPE, text=True, check=False)
    assert done.returncode == 0 and "badge.draft: passed" in done.stdout
    assert f"mellab {root}/usr/bin/mellab" in subprocess.run([*run, "--version"], env=env, stdout=subprocess.PIPE, text=True, check=False).stdout


@pytest.mark.parametrize("words", [["--root", "/proc/none"], ["/proc/none"]])
def test_a_folder_that_cannot_be_made_is_a_sentence(programs, words):
    done = install("--programs", programs, *words)
    assert done.returncode == 1 and done.stdout == ""
    assert re.search(r"^tools/install: the folder /proc/none\S* cannot be made or written$", done.stderr, re.MULTILINE) and "mkdir" not in done.stderr


@pytest.mark.skipif(shutil.which("dpkg-deb") is None, reason="there is no dpkg-deb")
def test_a_package_needs_a_folder(programs):
    done = subprocess.run([str(TOP / "tools/dev/deb"), "--programs", str(programs), "/proc/none"], stdout=subprocess.PIPE, stderr=subprocess.PIPE, text=True,
                          check=False)
    assert (done.returncode, done.stderr) == (1, "tools/dev/deb: the folder /proc/none cannot be made: No such file or directory\n")


def test_a_program_that_is_missing_is_named(tmp_path):
    done = install("--programs", tmp_path, "--root", tmp_path / "root")
    assert done.returncode == 1 and "not built: melcard melreader mellab meldesk" in done.stderr and not (tmp_path / "root").exists()
