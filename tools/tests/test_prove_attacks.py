"""Attacks every deck that `mellab prove` proves, and changed ones, as test_prove.py attacks two: what is called proved is broken by no attack.

The decks are those of prove_decks.tar.xz and of examples/ with rules for one application, and those of the folder that PROVE_DECKS names. The
commands are made from what the application's code compares, and applications that it delegates to are a hostile firm's own. Then applications and
rules are changed in one place each: what is still called proved is attacked too, and of what is not the attacks have to break a good part, or they
see nothing. PROVE_SEEDS is how many attacks each deck has, and a half of the changes that are made of it (8 if it is not set).

It needs pytest, and the programs, built by tools/build or by `rt ci`.
"""

import os
import pathlib
import random
import re
import subprocess
import tarfile
from dataclasses import dataclass, field

import pytest
from card import program_path
from test_prove import DECKS, DOORS, RELAYS, SEEDS, TOP, VICTIMS, Broken, Looked, Play, Victim, Watch, code, hostile, moments_of, proves, rules_of

FIRST = re.compile(r"^#@ app (\w+)", re.MULTILINE)
COMPARED = re.compile(r"\b(?:CMPB|ADDB|SUBB|SETB)\s+([^,;]+),\s*(0x[0-9A-Fa-f]+|\d+)")
LENGTHS = re.compile(r"\bCMPW\s+(?:PT\[-8\]|Lc)\s*,\s*(0x[0-9A-Fa-f]+|\d+)")


def section_of(deck, name):
    """The name of an application, and the lines of its section: none of a unit, which the deck's first selection is of."""
    found = re.search(rf"^app {name} (\w+).*?\n(.*?)^end\b", deck, re.MULTILINE | re.DOTALL)
    if found is None and re.search(rf"^unit {name} ", deck, re.MULTILINE):
        found = re.search(r"^select (\w+)()$", deck, re.MULTILINE)
    return (found[1], found[2]) if found else None


def count_of(deck):
    """The number of instructions of the application that a deck's rules speak of, or 0 of a unit."""
    _, text = section_of(deck, FIRST.search(deck)[1])
    words = (re.sub(r"^\s*\w+:", "", line).split(";")[0].split() for line in text.splitlines())
    return sum(bool(it) and not it[0].startswith("#") and it[0] not in ("DATA", "DIR", "FCI") for it in words)


def blocks_of(text):
    """The bytes of DATA lines, each as hexadecimal digits."""
    return [it[1].replace(" ", "").upper() for it in re.finditer(r"^\s*DATA ([0-9A-Fa-f ]+)", text, re.MULTILINE)]


def body(r, lengths, blocks):
    """The data of a command: bytes that the application has, numbers near its own, or any."""
    n = r.choice(lengths) if lengths and r.random() < 0.8 else r.randint(1, 6)
    held = "".join(blocks)
    kind = r.random()
    if kind < 0.5 and len(held) >= 2 * n:
        at = 2 * r.randrange(len(held) // 2 - n + 1)
        return held[at:at + 2 * n]
    if kind < 0.8:
        return f"{r.choice([0, 1, 2, 3, 100, 255, 1 << 8 * n - 1]) % (1 << 8 * n):0{2 * n}X}"
    return r.randbytes(n).hex().upper()


def liked_of(text, seed, count=30):
    """Commands that an attacker likes: by what the code of an application compares with each byte of a header."""
    r = random.Random(f"liked {seed}")
    compared = [(place.replace(" ", ""), int(it, 0) % 256) for place, it in COMPARED.findall(text)]
    blocks = blocks_of(text)
    near = sorted({(it + by) % 256 for _, it in compared for by in (-1, 0, 1)} | {0, 1, 255})

    def of(*places):
        return [(it + by) % 256 for place, it in compared if place in places for by in (-1, 0, 1)] + [*near, r.randrange(256), r.randrange(256)]

    codes = [it for place, it in compared if place in ("PT[-12]", "INS")] or [*bytes.fromhex("".join(blocks))[:8], 0x10]
    classes, firsts, seconds, thirds = of("PT[-13]", "CLA"), of("PT[-11]", "P1"), of("PT[-10]", "P2"), of("PT[-9]", "P3")
    lengths = [it for it in (int(it, 0) for it in LENGTHS.findall(text)) if 0 < it < 40]
    made = []
    for i in range(count):
        cla = 0x80 if r.random() < 0.8 else r.choice([0, *classes])
        ins = codes[i % len(codes)] if r.random() < 0.9 else r.choice(near)
        head = f"{cla:02X}{ins:02X}{r.choice(firsts):02X}{r.choice(seconds):02X}"
        kind = r.random()
        data = body(r, lengths, blocks)
        if kind < 0.6:
            made.append(f"{head}{len(data) // 2:02X}{data}" + ("00" if r.random() < 0.3 else ""))
        else:
            made.append(head + ("" if kind < 0.75 else f"{r.choice(thirds):02X}"))
    return made


def victim_of(deck, seed):
    """The application of a deck's rules, with an application of another firm under each other name that its bytes have, or None."""
    name = FIRST.search(deck)
    section = section_of(deck, name[1]) if name else None
    load = re.search(rf"^load {name[1]} \d+ \d+\s*$", deck, re.MULTILINE) if section else None
    if load is None:
        return None
    aid, text = section
    known = [it for it in re.findall(r"^apdu ([0-9A-Fa-f]+)", deck, re.MULTILINE) if len(it) >= 8]
    others = [it for it in re.findall(r"05([0-9A-F]{10})", " ".join(blocks_of(text))) if it != aid.upper() and not re.search(f" {it}$", deck, re.MULTILINE)]
    front = "".join(f"app other{i} {it}\n{code(random.Random(f'other {seed}'))}\nDATA 0102030405060708\nend\nload other{i} 8 4\n"
                    for i, it in enumerate(dict.fromkeys(others)))
    return Victim(deck.rstrip("\n") + "\n" + front, aid.upper(), load[0].strip(), tuple([*known, *liked_of(text, seed)]))


@dataclass
class Fired:
    """What happened in attacks: plays, events, moments that were looked up, the places of the application that instructions were done at, and the
    commands that came to new ones."""

    plays: int = 0
    events: int = 0
    looked: int = 0
    places: set = field(default_factory=set)
    favourites: dict = field(default_factory=dict)


class Placing(Looked):
    """Looks up moments, if there are any, and notes the places of the application's turns."""

    def __init__(self, rules, moments, is_in_session):
        super().__init__(rules, moments, is_in_session)
        self.places = set()

    def turn(self, line, data):
        self.places.add(line[1:5])
        super().turn(line, data)

    def static(self, held):
        if self.moments:
            super().static(held)
        else:
            Watch.static(self, held)


def attack(deck, text, seeds, name="", count=60):
    """Attacks the application of a deck that a text of `mellab prove` calls proved, and returns what happened. Commands that come to new places
    are sent more often in the attacks after it. Without a text no moment is looked up.

    # Errors

    AssertionError, if a rule is broken, or a moment is none of the text: the text is wrong, and the lines of the play are in the message.
    """
    fired = Fired()
    for seed in seeds:
        victim = victim_of(deck, f"{name} {seed}")
        if victim is None:
            return fired
        victim.liked += 8 * tuple(fired.favourites)
        play = Play(victim, hostile(victim, f"{name} {seed}", count))
        play.watch = Placing(rules_of(victim.deck), moments_of(text), lambda play=play: play.selected == play.victim.aid)
        try:
            fired.events += play.run()
        except Broken as broken:
            raise AssertionError(f"{name}, seed {seed}: {broken} is broken, and is called proved\n" + "\n".join(play.lines)) from None
        new = play.watch.places - fired.places
        fired.favourites |= {apdu: None for apdu, turns in play.commands() if any(turn[1:5] in new for turn in turns)}
        fired.places |= new
        fired.plays, fired.looked = fired.plays + 1, fired.looked + play.watch.looked
    return fired


def is_attacked(deck):
    """Whether the rules of a deck can be counted here: amounts of sums are numbers or bytes of a command's data."""
    return not re.search(r"^#@ on turn .* (?:add|take) \w+ PT", deck, re.MULTILINE)


def decks():
    """The decks with rules for one application, by their names."""
    found = {}
    with tarfile.open(DECKS) as packed:
        for it in packed.getmembers():
            if it.name.endswith(".deck"):
                found[pathlib.PurePath(it.name).stem] = packed.extractfile(it).read().decode("latin-1")
    folders = [TOP / "examples", *([pathlib.Path(os.environ["PROVE_DECKS"])] if os.environ.get("PROVE_DECKS") else [])]
    for path in sorted(it for folder in folders for it in folder.glob("*.deck")):
        found.setdefault(path.stem, path.read_text(encoding="latin-1"))
    found |= {name: it.deck for name, it in VICTIMS.items()}
    return {name: deck for name, deck in found.items() if FIRST.search(deck) and is_attacked(deck) and name != "many_keys"}


FOUND = decks()


def verdict(deck):
    """Whether `mellab prove` calls a deck proved, or not proved, or refuses it or takes long (None); and its text."""
    try:
        text = subprocess.run([program_path("mellab"), "prove"], input=deck, stdout=subprocess.PIPE, text=True, timeout=30, check=False).stdout
    except subprocess.TimeoutExpired:
        return None, ""
    last = text.splitlines()[-1]
    return True if last.startswith("proved keys ") else False if last.startswith("not proved keys ") else None, text


TEXTS = {name: verdict(deck) for name, deck in FOUND.items()}
PROVED = [name for name, (proved, _) in TEXTS.items() if proved]


@pytest.mark.parametrize("name", PROVED)
def test_no_attack_breaks_a_proved_deck(name):
    attack(FOUND[name], TEXTS[name][1], range(max(1, SEEDS // 2)), name)


def test_attacks_come_to_rules_and_moments():
    fired = {name: attack(FOUND[name], TEXTS[name][1], range(max(3, SEEDS // 2)), name) for name in PROVED}
    fired = {name: it for name, it in fired.items() if it.plays}
    assert len(fired) >= 29
    assert all(it.looked > 0 and it.events > 0 for it in fired.values())
    reached = {name: len(it.places) / count_of(FOUND[name]) for name, it in fired.items() if count_of(FOUND[name])}
    assert sum(reached.values()) > 0.85 * len(reached), reached


# ---- changed applications and rules


def changed_number(r, number):
    """Another number, near a given one or at a bound."""
    value = int(number, 0)
    return str(r.choice([it for it in (value + 1, value - 1, value + 16, 0, 1, 255) if 0 <= it <= 255 and it != value]))


def change(deck, seed):
    """A deck with one change of its application or of its rules, or None if this seed makes none."""
    r = random.Random(f"change {seed}")
    lines, inside, places = deck.splitlines(), False, []
    name = FIRST.search(deck)[1]
    for at, line in enumerate(lines):
        words = line.split()
        if words[:2] == ["app", name]:
            inside = True
        elif words[:1] == ["end"]:
            inside = False
        elif inside and words and words[0] != "DATA" and not line.lstrip().startswith((";", "#")):
            places.append((at, "code"))
        elif words[:2] == ["#@", "on"] or words[:2] == ["#@", "allow"]:
            places.append((at, "rule"))
    at, kind = r.choice(places)
    line = lines[at].split(";")[0].rstrip()
    label, instruction = re.match(r"(\s*(?:\w+:)?\s*)(.*)", line).groups()
    if kind == "rule":
        changed = re.sub(r"(\d+)$", lambda it: str(max(0, int(it[1]) + r.choice([-1, 1]))), line)
    elif r.random() < 0.5 or not re.search(r",(0x)?[0-9A-Fa-f]+$", instruction):
        changed = f"{label}NOP"
    else:
        changed = label + re.sub(r",(0x[0-9A-Fa-f]+|\d+)$", lambda it: f",{changed_number(r, it[1])}", instruction)
    if r.random() < 0.2 and kind == "code" and at + 1 < len(lines) and (at + 1, "code") in places and ":" not in lines[at] + lines[at + 1]:
        return "\n".join([*lines[:at], lines[at + 1], lines[at], *lines[at + 2:]]) + "\n"
    return None if changed == line else "\n".join([*lines[:at], changed, *lines[at + 1:]]) + "\n"


# Decks whose rules an attack can break once something is changed.
WORTH = [name for name in PROVED if re.search(r"^#@ (?:on .* (?:spend|need) |never )", FOUND[name], re.MULTILINE)]


def changes(name):
    """How many changes are made of a deck: more where it has more rules."""
    return max(1, SEEDS // 4) * (1 + len(rules_of(FOUND[name]).ons) // 2)


def test_no_attack_breaks_what_is_still_proved_after_a_change():
    still, broken, missed = 0, 0, []
    for name in WORTH:
        for seed in range(changes(name)):
            deck = change(FOUND[name], f"{name} {seed}")
            proved, text = verdict(deck) if deck is not None else (None, "")
            if proved:
                still += attack(deck, text, range(3), f"{name} changed {seed}").plays > 0
            elif proved is False:
                try:
                    attack(deck, "", range(6), f"{name} changed {seed}")
                    missed.append(f"{name} {seed}")
                except AssertionError:
                    broken += 1
    # (what is not proved need not break, or takes longer to break than these plays)
    assert still > len(WORTH) and 2 * broken > len(missed), (still, broken, missed)


# ---- texts that are wrong


@pytest.mark.parametrize("door", DOORS)
def test_a_deck_that_is_wrongly_called_proved_is_found(door):
    """The check itself is tried: of each application with a door a text says `proved`, with the moments of the one without it."""
    victim, _ = DOORS[door]
    text = re.sub(r"^(broken|unknown) .*\n", "", proves(victim)[1], flags=re.MULTILINE).replace("not proved keys", "proved keys")
    assert text.splitlines()[-1].startswith("proved keys ")
    with pytest.raises(AssertionError, match="is called proved"):
        attack(victim.deck, text, range(20 * SEEDS), door, 60)


def test_a_moment_that_a_text_leaves_out_is_found():
    """So is it with a text that has not all moments: a value that is left out of a fact, a moment that is left out."""
    deck = FOUND["pin_proved"]
    text = TEXTS["pin_proved"][1]
    for old, new in (("SB[2] 00-03", "SB[2] 00-02"), ("session guesses 2", "session guesses 9"), ("SB[2] 00-01", "SB[2] 00")):
        assert old in text
        with pytest.raises(AssertionError, match="is called proved"):
            attack(deck, text.replace(old, new), range(20 * SEEDS), "pin_proved", 60)


def test_relays_come_to_every_depth():
    """Frames of the application at depths 1 to 4 are all seen."""
    victim = victim_of(FOUND["pin_proved"], "depths")
    depths = set()
    for seed in range(SEEDS):
        play = Play(victim, hostile(victim, f"depths {seed}"))
        depths |= {turn[0] for turns, _ in play.results.values() for turn in turns}
    assert depths == {"1", *(str(2 + i) for i in range(len(RELAYS)))}
