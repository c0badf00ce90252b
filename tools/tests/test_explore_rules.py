"""What `mellab prove` has proved of an application, no exploration breaks; and a rule that is broken is found where a deck's moves lead to it.

Each deck of prove_decks.tar.xz, and each of examples/ with rules of an application, gets moves: its selection, a power line, another application that
delegates to it, and the commands of attacks that came to new places of its code. If `prove` says `proved`, the exploration breaks nothing; if the
exploration breaks a rule, `prove` names it. So it is of decks that are changed in one place, of which explorations have to break a part. The lines
that an exploration writes play to it: counted over `melcard trace`, by the reading of rules that attacks have, they break that rule.

It needs pytest, and the programs, built by tools/build or by `rt ci`.
"""

import functools
import re
import subprocess

import pytest
from card import program_path
from test_prove import DOORS, RELAYS, VICTIMS, Broken, Play, relays_to
from test_prove_attacks import FOUND as ATTACKED
from test_prove_attacks import TEXTS, WORTH, attack, change, changes, verdict, victim_of

DEPTH, STATES, MOVES = "5", "300", 12


def mellab(*words, deck):
    """What mellab writes of a deck, and its status."""
    done = subprocess.run([program_path("mellab"), *words], input=deck.encode("latin-1"), capture_output=True, check=False)
    return done.stdout.decode("latin-1"), done.returncode


# Without those in which nothing can be broken.
FOUND = {name: deck for name, deck in ATTACKED.items() if re.search(r"^#@ (on|never|always) ", deck, re.MULTILINE)}
PROVED = [name for name in FOUND if TEXTS[name][0]]
REFUTED = [name for name in FOUND if TEXTS[name][0] is False]


@functools.lru_cache(maxsize=None)
def moves_of(name):
    """Moves for a deck, as lines: power, the selection of its application and of one that delegates to it, and the commands that came to new places
    of its code when it was attacked."""
    deck = FOUND[name]
    known = [f"#@ move {line}" for line in deck.splitlines() if line.startswith("apdu ")]
    try:
        commands = attack(deck, "", range(4), name).favourites
    except AssertionError:
        commands = victim_of(deck, name).liked[:MOVES]
    lines = ["#@ move power", f"#@ move select {victim_of(deck, name).aid}", f"#@ move select {RELAYS[0]}", *known, *(f"#@ move apdu {it}" for it in commands)]
    return "\n".join(list(dict.fromkeys(lines))[:MOVES]) + "\n"


def explored(name, deck):
    """What an exploration writes of a deck, with the moves of one by its name."""
    victim = victim_of(deck, name)
    lines = [it for it in victim.deck.splitlines() if not it.startswith("#@ move ")]
    relays = relays_to(victim.aid)
    front = next(at for at, line in enumerate(lines) if line == "power") + 1
    return mellab("explore", DEPTH, "--states", STATES, deck="\n".join([*lines[:front], *relays, *lines[front:]]) + "\n" + moves_of(name))


def breaks(name, deck):
    """The names of the rules that an exploration breaks, none or one."""
    text, status = explored(name, deck)
    last = text.splitlines()[-1]
    broken = [line.split()[1] for line in text.splitlines() if line.startswith("broken ")]
    assert status == 1 if broken else last.startswith("explored states ") and status in (0, 6), text
    return broken


@pytest.mark.parametrize("name", PROVED)
def test_explores_what_is_proved(name):
    """No exploration of a proved deck breaks a rule."""
    assert breaks(name, FOUND[name]) == []


@pytest.mark.parametrize("name", REFUTED)
def test_breaks_only_what_is_not_proved(name):
    """What an exploration breaks is a rule that the text of `prove` names."""
    for rule in breaks(name, FOUND[name]):
        assert re.search(rf"^(broken {re.escape(rule)} |unknown )", TEXTS[name][1], re.MULTILINE), TEXTS[name][1]


def test_breaks_what_is_changed():
    """Of applications and rules that are changed in one place, explorations break none that is still proved, and a part of those that are not."""
    still, broken, missed = 0, 0, []
    for name in WORTH:
        for seed in range(changes(name)):
            deck = change(FOUND[name], f"explored {name} {seed}")
            proved, text = verdict(deck) if deck is not None else (None, "")
            found = breaks(name, deck) if proved is not None else []
            assert not (proved and found), (name, seed, found, deck)
            assert not found or re.search(rf"^(broken {re.escape(found[0])} |unknown )", text, re.MULTILINE), (name, seed, found, deck)
            still, broken = still + (proved is True), broken + bool(found)
            missed += [f"{name} {seed}"] if proved is False and not found else []
    assert still > len(WORTH) and broken > len(missed) // 2, (still, broken, missed)


def liked_moves(victim):
    """The moves of an attacker, for an exploration."""
    return "".join(f"#@ move apdu {it}\n" for it in dict.fromkeys(victim.liked)) + f"#@ move select {victim.aid}\n"


def played(victim, lines):
    """The lines of a deck and more, with a look at the static bytes after each line that leaves a card."""
    for line in victim.deck.splitlines() + lines:
        yield line
        if line.split(" ")[0] in ("apdu", "power", "select"):
            yield f"dump {victim.aid}"


@pytest.mark.parametrize("door", DOORS)
def test_finds_doors(door):
    """The doors that attacks find are found by moves that lead to them, and the lines that are written break the rule, counted over a trace."""
    victim, rule = DOORS[door]
    text, status = mellab("explore", "9", deck=victim.deck.rstrip("\n") + "\n" + liked_moves(victim))
    lines = text.splitlines()
    at = [i for i, line in enumerate(lines) if line.startswith("broken ")]
    assert status == 1 and len(at) == 1, text
    way = lines[at[0] + 1:]
    assert lines[at[0]] == f"broken {rule} after {len(way)} lines"
    with pytest.raises(Broken) as broken:
        Play(victim, list(played(victim, way))).run()
    assert str(broken.value) == rule


@pytest.mark.parametrize("name", VICTIMS)
def test_keeps_victims(name):
    """The applications behind the doors keep their rules under the same moves."""
    victim = VICTIMS[name]
    text, _ = mellab("explore", "4", deck=victim.deck.rstrip("\n") + "\n" + liked_moves(victim))
    assert text.splitlines()[-1].startswith("explored states "), text


COUNTER = """format
power
app a A000000001
DATA 0000
        INCN SB[0],2
        EXIT
end
load a 2 0
#@ app a
"""
# What follows the deck of a counter, and the text of its exploration.
SMALL = {
    # three commands in one session are one too many
    "three": ("#@ allow n 2\n#@ on turn *INCN* spend n 1\nselect A000000001\n#@ move apdu 8001000000\n",
              "broken n after 3 lines\napdu 8001000000\napdu 8001000000\napdu 8001000000\n"),
    # a command whose write is not whole is no turn, and is not answered
    "torn": ("#@ allow n 0\n#@ on command * allow n 1\n#@ on turn * need n 1\n#@ on answer * gives off* spend n 9\n#@ move apdu 8001000000\n"
             "#@ move select A000000001\n#@ always SB[0] 0 1\n", None),
    # the events of the deck's own lines count
    "deck": ("#@ allow n 1\n#@ on turn *INCN* spend n 1\nselect A000000001\napdu 8001000000\n#@ move apdu 8001000000\n",
             "broken n after 1 lines\napdu 8001000000\n"),
    "deck_breaks": ("#@ allow n 1\n#@ on turn *INCN* spend n 1\nselect A000000001\napdu 8001000000\napdu 8001000000\n#@ move apdu 8001000000\n",
                    "broken n after 0 lines\n"),
    # a write that a stop hits counts exactly if it is durable: here at the commit record, and not before
    "stop": ("#@ allow n 1\n#@ on turn *INCN* spend n 1\nselect A000000001\ncut 4 0000000000000000\napdu 8001000000\npower\nselect A000000001\n"
             "#@ move apdu 8001000000\n", "broken n after 2 lines\napdu 8001000000\napdu 8001000000\n"),
    "stop_opens": ("#@ allow n 1\n#@ on turn *INCN* spend n 1\nselect A000000001\ncut 4 4F50454E2D322D2D\napdu 8001000000\npower\n"
                   "select A000000001\n#@ move apdu 8001000000\n", "broken n after 1 lines\napdu 8001000000\n"),
    "stop_late": ("#@ allow n 1\n#@ on turn *INCN* spend n 1\nselect A000000001\ncut 5 0000000000000000\napdu 8001000000\npower\n"
                  "select A000000001\n#@ move apdu 8001000000\n", "broken n after 1 lines\napdu 8001000000\n"),
    # a new creation has all allowances again
    "created": ("#@ allow n 1\n#@ on turn *INCN* spend n 1\nselect A000000001\napdu 8001000000\npower\ndelete A000000001\nload a 2 0\n"
                "select A000000001\n#@ move apdu 8001000000\n", "broken n after 2 lines\napdu 8001000000\napdu 8001000000\n"),
    # ranges, and blocks that sums bind
    "range": ("#@ always SB[1] 0 1\nselect A000000001\n#@ move apdu 8001000000\n",
              "broken SB[1] after 2 lines\napdu 8001000000\napdu 8001000000\n"),
    "block": ("#@ sum n 0\n#@ on turn *INCN* add n 2\n#@ always SB[0..1] = 0 + n\nselect A000000001\n#@ move apdu 8001000000\n",
              "broken SB[0..1] after 1 lines\napdu 8001000000\n"),
    "books": ("#@ sum n 0\n#@ on turn *INCN* add n 1\n#@ always SB[0..1] = 0 + n\nselect A000000001\n#@ move apdu 8001000000\n", None),
}


@pytest.mark.parametrize("name", SMALL)
def test_small(name):
    """Small decks: what is broken, and the lines that lead there; or that nothing is."""
    more, due = SMALL[name]
    text, status = mellab("explore", "3", deck=COUNTER + more)
    at = text.find("broken ")
    assert (text[at:] if at >= 0 else None) == due, text
    assert status == (6 if due is None else 1)


# What is refused of rules and moves, by its line and cause.
REFUSED = {
    "other": ("#@ move power\n#@ allow n 1\n#@ on select* gives * allow n 1\n", "line 12 BadLine"),
    "move": ("#@ move apdu\n#@ moves power\n", "line 10 BadLine"),
    "rule_first": ("#@ moves power\n#@ move apdu\n", "line 10 BadLine"),
    "number": ("#@ move apdu 8\n#@ never abend\n", "line 10 BadHex"),
    "longer": ("#@ move power\n#@never abend\n", "line 11 BadLine"),
    "no_move": ("#@ never abend\n", "line 0 NoMove"),
    "no_rule": ("#@ move power\n#@ allow n 1\n", "line 0 NoRule"),
    "unknown": ("#@ move power\n#@ on session spend n 1\n", "line 11 UnknownName"),
}


@pytest.mark.parametrize("name", REFUSED)
def test_refuses(name):
    """The first line that is no move and no rule is refused."""
    more, due = REFUSED[name]
    assert mellab("explore", "3", deck=COUNTER + more) == (due + "\n", 1)
