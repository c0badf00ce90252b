"""Tests of tools/dev/shorten without a prover: what it takes for a declaration, and what it puts in its place."""

import importlib.machinery
import importlib.util
from pathlib import Path

import pytest

SCRIPT = Path(__file__).resolve().parent.parent / "dev" / "shorten"

FILE = """-- Numbers.
use Rattle.std.proofs.Common.{◌≡◌, ℕ, ◌≤◌, refl}
use Rattle.some_crate.proofs.Numbers.{less, more}

pub one : (a b : ℕ) → a ≤ b → a ≤ b
one a b h =
    let first : a ≤ b = less a b h in
    let second = more first in
    second

-- by cases
two : (s : State) → Holds s
two Open = less
two Shut =
    more (
      less
    )

three : (l : List ℕ) → Holds l
three [] = refl
three (x ∷ xs) =
    let rest = three xs in
    more rest x

abbrev Size : Type 0
Size =
    ℕ ×
    ℕ
"""


@pytest.fixture(name="script")
def loaded():
    loader = importlib.machinery.SourceFileLoader("shorten", str(SCRIPT))
    module = importlib.util.module_from_spec(importlib.util.spec_from_loader("shorten", loader))
    loader.exec_module(module)
    return module


def forms(script, kind):
    lines = FILE.split("\n")
    lemmas = script.imported_lemmas(FILE)
    return {it.name: getattr(script.Forms(lines, it, lemmas), kind)() for it in script.declarations(lines) if not it.is_definition}


def test_declarations_have_all_their_lines(script):
    lines = FILE.split("\n")
    found = {it.name: it for it in script.declarations(lines)}
    assert [*found] == ["one", "two", "three", "Size"]
    assert [lines[begin:end] for begin, end in found["two"].clauses] == [
        ["two Open = less"],
        ["two Shut =", "    more (", "      less", "    )"],
    ]
    assert found["Size"].is_definition


def test_a_lemma_is_one_call_with_what_it_cites(script):
    found = forms(script, "whole")
    assert found["one"] == [(5, 9, [["one a b h = grind (arith, less, more)"]])]
    assert found["two"][0][2] == [["two s = grind (arith, less, more)"]]


def test_a_recursive_lemma_is_not_one_call(script):
    assert forms(script, "whole")["three"] == []


def test_a_clause_calls_itself_with_its_own_arguments(script):
    begin, end, tried = forms(script, "by_clause")["three"][0]
    assert FILE.split("\n")[begin:end] == ["three (x ∷ xs) =", "    let rest = three xs in", "    more rest x"]
    assert tried[0] == ["three (x ∷ xs) = grind (arith, more, three xs)"]


def test_values_of_lets_are_the_second_form(script):
    assert forms(script, "by_clause")["one"][0][2][1] == ["one a b h = grind (arith, less a b h, more (less a b h))"]


def test_a_file_comes_back_as_it_was_if_no_form_is_accepted(script, tmp_path):
    path = tmp_path / "Numbers.antt"
    path.write_text(FILE, encoding="utf-8")
    sites = script.Sites(path, "whole")
    sites.write()
    assert path.read_text(encoding="utf-8") != FILE
    while any(site[2] for site in sites.sites):
        sites.drop_all()
        sites.write()
    assert path.read_text(encoding="utf-8") == FILE


def test_unused_declarations_go_with_their_comments(script, tmp_path, monkeypatch):
    crate = tmp_path / "crates" / "numbers" / "proofs"
    crate.mkdir(parents=True)
    (crate / "Numbers.antt").write_text(FILE, encoding="utf-8")
    (crate / "Uses.antt").write_text("use Rattle.numbers.proofs.Numbers.{one, three, Size}\n", encoding="utf-8")
    monkeypatch.setattr(script, "TOP", tmp_path)
    script.remove_unused(["numbers"])
    left = (crate / "Numbers.antt").read_text(encoding="utf-8")
    assert "two" not in left and "by cases" not in left
    assert "three" in left and "abbrev Size" in left
