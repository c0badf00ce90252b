"""What tools/dev/make readmes finds of pages whose names are not there, over a tree of two crates.

It needs pytest.
"""

import pathlib
import shutil
import subprocess
import sys

import pytest

TOOL = pathlib.Path(__file__).resolve().parent.parent / "dev"
README = """# one: a counter

It counts up to `MOST`, as `two` has it.

## What is proved

- `count_up` (`IsRaised`): `Counter::raise` is one more, and `two::falls` does not hold.
- `specs/Counts.antt` has `raised`, the deck's word `poke`, and `Above` of `proofs/CountLemmas`.
"""
FILES = {
    "crates.txt": "# Counters.\none: two\ntwo:\n",
    "README.md": "# All\n",
    "docs/PROOFS.md": "# Proofs\n\n<!-- made by tools/dev/make readmes -->\n\n<!-- end -->\n\n`one::count_up` is here.\n",
    "crates/one/src/lib.rt": "pub struct Counter {\n    count: u8,\n}\n\nimpl Counter {\n    pub fn raise(&mut self) {\n        other_call(1);\n    }\n}\n\n"
                             "pub fn count_up()\n    ensures { IsRaised }\n{}\n\nconst MOST: u8 = 9;\n",
    "crates/one/specs/Counts.antt": "-- counts\nabbrev pub raised : ℕ → ℕ\nraised n = n + 1\n\npub record IsRaised (n : ℕ) : Type 0 where\n  pub above : n ≡ n\n\n"
                                    "pub data Place : Type 0 where\n  Above : Place\n",
    "crates/one/proofs/CountLemmas.antt": "",
    "crates/one/README.md": README,
    "crates/two/src/lib.rt": 'pub fn falls() {}\n\nfn words() {\n    say("poke");\n}\n',
    "crates/two/README.md": "# two: a fall\n\n## What is proved\n\n- `falls`\n",
}


@pytest.fixture
def tree(tmp_path):
    """A tree whose table is up to date."""
    for name, text in FILES.items():
        (tmp_path / name).parent.mkdir(parents=True, exist_ok=True)
        (tmp_path / name).write_text(text, encoding="utf-8")
    shutil.copytree(TOOL, tmp_path / "tools" / "dev", ignore=shutil.ignore_patterns("__pycache__"))
    assert run(tmp_path).returncode == 0
    return tmp_path


def run(tree, *words):
    """What the tool does in a tree."""
    return subprocess.run([sys.executable, str(tree / "tools" / "dev" / "make"), *words, "readmes"], stdout=subprocess.PIPE, text=True, check=False)


def change(tree, name, old, new):
    """Changes a file of the tree, and returns what the check then says."""
    path = tree / name
    text = path.read_text(encoding="utf-8")
    assert text.count(old) == 1
    path.write_text(text.replace(old, new), encoding="utf-8")
    done = run(tree, "--check")
    assert done.returncode == 1
    return done.stdout


def test_names_that_are_there_pass(tree):
    done = run(tree, "--check")
    assert (done.returncode, done.stdout) == (0, "every README names what is there\n")


def test_the_table_has_titles(tree):
    page = (tree / "docs" / "PROOFS.md").read_text(encoding="utf-8")
    assert "Counters.\n\n| Crate | What it is |\n|---|---|\n| [one](../crates/one/README.md) | a counter |\n" in page
    assert "not up to date" in change(tree, "crates/one/README.md", "a counter", "an odd counter")


@pytest.mark.parametrize("old,new,fault", [
    ("`count_up`", "`count_down`", "no `count_down` in this crate"),
    ("`count_up`", "`falls_down`", "no `falls_down` in this crate"),
    ("`two::falls`", "`falls`", "no `falls` in this crate"),
    ("`two::falls`", "`two::count_up`", "no `two::count_up` in this crate"),
    ("`Counter::raise`", "`Counter::lower`", "no `Counter::lower` in this crate"),
    ("`IsRaised`", "`IsLowered`", "no `IsLowered` in this crate"),
    ("`raised`", "`other_call`", "no `other_call` in this crate"),
    ("`specs/Counts.antt`", "`specs/Count.antt`", "no file `specs/Count.antt`"),
    ("`proofs/CountLemmas`", "`proofs/Lemmas`", "no file `proofs/Lemmas`"),
    ("## What is proved", "## Proved", "no `## What is proved`"),
    ("# one: a counter", "# A counter", "no README with the title"),
    ("is one more", "is one " + "more " * 150, "characters"),
])
def test_what_is_not_there_is_named(tree, old, new, fault):
    assert fault in change(tree, "crates/one/README.md", old, new)


@pytest.mark.parametrize("text,fault", [
    ("`one::count_down` is here", "no `one::count_down`"),
    ("`raised_by` in `crates/one/specs/Counts.antt`", "no `raised_by` in `crates/one/specs/Counts.antt`"),
    ("`raised` in `crates/one/specs/Missing.antt`", "no `raised` in `crates/one/specs/Missing.antt`"),
])
def test_names_of_other_pages(tree, text, fault):
    assert fault in change(tree, "docs/PROOFS.md", "`one::count_up` is here", text)


def test_a_crate_without_a_readme(tree):
    (tree / "crates" / "two" / "README.md").unlink()
    done = run(tree, "--check")
    assert done.returncode == 1
    assert "crates/two/README.md: no README" in done.stdout
