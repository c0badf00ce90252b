"""Attacks what `mellab prove` has proved: hostile terminals, other applications, cuts, failed writes and small budgets break no rule. And compares
its texts with those of another program.

A proved deck is played with random lines, and its rules are counted here over `melcard trace`, by a reading of their own; each moment at which
static bytes are seen is looked up in the text, of random applications too. The same attack finds the doors of applications that are not proved, so
it can see what it looks for. PROVE_SEEDS is how many attacks each deck has (8 if it is not set).

It needs pytest, and the programs, built by tools/build or by `rt ci`.
"""

import os
import pathlib
import random
import re
import resource
import subprocess
import tarfile
from dataclasses import dataclass, field

import pytest
from card import program_path

TOP = pathlib.Path(__file__).resolve().parent.parent.parent
SEEDS = int(os.environ.get("PROVE_SEEDS", "8"))
# Decks with the texts that another program wrote of them, which was made from the same description.
DECKS = pathlib.Path(__file__).resolve().parent / "prove_decks.tar.xz"
PURSE = (TOP / "examples" / "pin_proved.deck").read_text(encoding="ascii")
# Applications that delegate to another; their DATA are the length and the name of that one: the victim, or the relay before it.
RELAYS = ("A0000003F1", "A0000003F2", "A0000003F3")
RELAYING = """app {name} {aid}
        LOADA SB[0]
        PRIM 7
        EXIT
DATA 05{next}
end
load {name} 6 0
"""
# At which depth a victim's frame is, if the terminal has selected this application.
DEPTHS = {aid: str(2 + i) for i, aid in enumerate(RELAYS)}
# Three rides, each counted down before it is answered, and told by delegation too.
TICKET = """format
power
app ticket A000000320
DATA 03
        CMPB PT[-12],0x30
        JUMP EQ,ride
        CMPB PT[-12],0x32
        JUMP EQ,left
        EXITSW 0x6D00
ride:   TESTN SB[0],1
        JUMP EQ,empty
        DECN SB[0],1
left:   LOAD SB[0],1
        STORE PB[0],1
        EXITLA 1
empty:  EXITSW 0x6985
end
load ticket 1 0
#@ app ticket
#@ allow rides 3
#@ on turn *DECN SB[0],1* spend rides 1
#@ allow taken 0
#@ on command * allow taken 0
#@ on turn 1*DECN SB[0],1* allow taken 1
#@ on answer ??30* gives ??9000 need taken 1
#@ sum used 0
#@ on turn *DECN SB[0],1* add used 1
#@ always SB[0..0] = 3 - used
#@ always SB[0] 0 3
#@ never abend
"""


@dataclass
class Victim:
    """An application with rules: its deck, its name, its `load` line, and the commands that an attacker likes."""

    deck: str
    aid: str
    load: str
    liked: tuple


PIN, WRONG, DEBIT = "80200000021234", "80200000029999", "80400000020001"
VICTIMS = {
    "purse": Victim(PURSE, "A000000100", "load purse 7 1",
                    (PIN, PIN, PIN, WRONG, "80200000021235", "802000000112", DEBIT, DEBIT, DEBIT, "80400000020100", "8040000002FFFF", "8040000000",
                     "8040000003000100", "8050000002", "80990000")),
    "ticket": Victim(TICKET, "A000000320", "load ticket 1 0", ("80300000", "8030000001", "803000FF01", "803000007F", "8032000001", "00300000")),
}


def changed(name, *edits):
    """A victim with edits of its deck."""
    it = VICTIMS[name]
    deck = it.deck
    for old, new in edits:
        assert deck.count(old) == 1, old
        deck = deck.replace(old, new)
    return Victim(deck, it.aid, it.load, it.liked)


# Doors: an application that is not proved, and the rule that it breaks.
DOORS = {
    # INS 99 gives all guesses back
    "gift": (changed("purse", ("        EXITSW 0x6D00\n", "        CMPB PT[-12],0x99\n        JUMP EQ,gift\n        EXITSW 0x6D00\n"
                                                         "gift:   SETB SB[2],3\n        EXIT\n")), "guesses"),
    # a guess is spent only after the PIN was compared
    "late": (changed("purse", ("        DECN SB[2],1              ; a guess is spent before the PIN is looked at\n", ""),
                     ("        JUMP NE,denied\n        SETB SB[2],3", "        JUMP NE,wrong\n        SETB SB[2],3"),
                     ("denied: EXITSW", "wrong:  DECN SB[2],1\ndenied: EXITSW")), "guesses"),
    # money and number change one after the other
    "torn": (changed("purse", ("        PRIM 3,2                ; money and number change together\n", "")), "waits"),
    # P2 FF rides for nothing
    "free": (changed("ticket", ("        DECN SB[0],1\n", "        CMPB PT[-10],0xFF\n        JUMP EQ,left\n        DECN SB[0],1\n")), "taken"),
    # P3 7F runs off the stack
    "deep": (changed("ticket", ("        STORE PB[0],1\n", "        STORE PB[0],1\n        CMPB PT[-9],0x7F\n        JUMP NE,answer\n        POPB\n"
                                                         "answer: NOP\n")), "abend"),
}


# ---- the rules, read from a deck


def pattern(signs):
    """A pattern as a regular expression: no blanks, `?` any sign, `*` any signs, either case."""
    return re.compile("".join({"?": ".", "*": ".*"}.get(it, re.escape(it)) for it in signs.replace(" ", "")), re.IGNORECASE | re.DOTALL)


@dataclass
class On:
    """An `on` line: its event, its patterns, its effect, a name and an amount."""

    event: str
    fits: "re.Pattern[str]"
    gives: "re.Pattern[str]"
    effect: str
    name: str
    amount: str


@dataclass
class Rules:
    """The rules of a deck."""

    allowed: dict = field(default_factory=dict)
    sums: dict = field(default_factory=dict)
    ons: list = field(default_factory=list)
    ranges: list = field(default_factory=list)
    balances: list = field(default_factory=list)
    never: bool = False


def rules_of(deck):
    """The rules of a deck, as they stand in it."""
    rules = Rules()
    for line in deck.splitlines():
        words = line.split()
        if words[:1] != ["#@"]:
            continue
        if words[1] == "allow":
            rules.allowed[words[2]] = int(words[3], 0)
        elif words[1] == "sum":
            rules.sums[words[2]] = int(words[3], 0)
        elif words[1] == "never":
            rules.never = True
        elif words[1] == "on":
            effect, name, amount = words[-3:]
            middle = words[3:-3]
            fits, gives = (middle[:middle.index("gives")], middle[middle.index("gives") + 1:]) if "gives" in middle else (middle, ["*"])
            rules.ons.append(On(words[2], pattern("".join(fits)), pattern("".join(gives)), effect, name, amount))
        elif found := re.fullmatch(r"SB\[(\d+)\.\.(\d+)\] = (\d+)((?: [+-] \w+)*)", " ".join(words[2:])):
            signed = re.findall(r"([+-]) (\w+)", found.group(4))
            rules.balances.append((int(found.group(1)), int(found.group(2)), int(found.group(3)), signed))
        elif found := re.fullmatch(r"SB\[(\d+)\] (\S+) (\S+)", " ".join(words[2:])):
            rules.ranges.append(tuple(int(it, 0) for it in found.groups()))
    return rules


# ---- the count of them


class Broken(Exception):
    """A rule that an attack broke."""


class Watch:
    """Counts the rules of a deck over what happens to its application."""

    def __init__(self, rules):
        self.rules, self.exists = rules, False
        self.left, self.sums, self.waiting, self.is_protected = {}, {}, [], False
        self.events = 0

    def created(self):
        """The application is there, with all allowances again."""
        self.exists, self.left, self.sums = True, dict(self.rules.allowed), dict(self.rules.sums)

    def deleted(self):
        """The application is gone, and its history ends."""
        self.exists = False

    def happened(self, event, text="", result="", data=b""):
        """An event: each line that it matches does its work."""
        self.events += 1
        for on in self.rules.ons:
            if on.event != event or not on.fits.fullmatch(text) or event == "answer" and not on.gives.fullmatch(result):
                continue
            self.applied(on, data)

    def applied(self, on, data):
        """What one line does."""
        if on.effect in ("add", "take"):
            self.waiting.append((on.name, amount_of(on.amount, data) * (1 if on.effect == "add" else -1)))
            return
        amount, left = int(on.amount, 0), self.left[on.name]
        if on.effect == "allow":
            self.left[on.name] = amount
        elif left < amount:
            raise Broken(on.name)
        elif on.effect == "spend":
            self.left[on.name] = left - amount

    def turn(self, line, data):
        """An instruction was done in a frame of the application; sums wait for a commit under protection."""
        drops, commits = (re.search(f"PRIM3,[{it}]8", line) is not None for it in ("02", "13"))
        if self.is_protected and drops:
            before, self.waiting = self.waiting, []
            self.happened("turn", line, data=data)
            self.waiting = before[:0]
        else:
            self.happened("turn", line, data=data)
        if commits or not self.is_protected:
            self.settle()
        if drops or commits:
            self.is_protected = re.search("PRIM3,[23]8", line) is not None

    def settle(self):
        """What waits is done."""
        for name, amount in self.waiting:
            self.sums[name] += amount
        self.waiting = []

    def frame_ended(self):
        """What waits is dropped."""
        self.waiting, self.is_protected = [], False

    def static(self, held):
        """The static bytes at a moment at which power may go."""
        for at, low, high in self.rules.ranges:
            if not low <= held[at] <= high:
                raise Broken(f"SB[{at}]")
        for low, high, constant, signed in self.rules.balances:
            due = constant + sum(self.sums[name] * (1 if sign == "+" else -1) for sign, name in signed)
            if int.from_bytes(held[low:high + 1], "big") != due % 256 ** (high + 1 - low):
                raise Broken(f"SB[{low}..{high}]")


def amount_of(text, data):
    """An amount of a line: a number, or bytes of the command's data."""
    found = re.fullmatch(r"PB\[(\d+)\.\.(\d+)\]", text)
    return int(text, 0) if found is None else int.from_bytes(data[int(found.group(1)):int(found.group(2)) + 1], "big")


# ---- a play


def traced(lines):
    """What a deck does: for the number of each line that has a result, its turns and the result."""
    done = subprocess.run([program_path("melcard"), "trace"], input="".join(f"{it}\n" for it in lines), stdout=subprocess.PIPE, text=True, timeout=60,
                          check=False)
    assert done.returncode == 0, done.stdout
    found, turns = {}, []
    for line in done.stdout.splitlines():
        if line.startswith(">"):
            turns.append(line[1:].replace(" ", ""))
        else:
            number, _, result = line.partition(" ")
            found[int(number)] = (turns, result)
            turns = []
    return found


def static_after(lines, aid):
    """The static bytes that an application has after some lines and a power-up."""
    _, result = traced([*lines, "power", f"dump {aid}"])[len(lines) + 2]
    return result


def hit_turn(lines, at, prefix, aid, kept):
    """The instruction whose write a stop hit, if that write is whole: of the command in line `at`, behind its `prefix` of whole ones."""
    front = lines[:at - 2]  # without the stop, which stands just before the command
    turns, _ = traced([*front, lines[at - 1]])[len(front) + 1]
    if len(turns) <= len(prefix):
        return None
    before = static_after([*front, f"budget {len(prefix)}", lines[at - 1]] if prefix else front, aid)
    after = static_after([*front, f"budget {len(prefix) + 1}", lines[at - 1]], aid)
    return turns[len(prefix)] if kept == after and after != before else None


def data_of(apdu):
    """The data of a short command."""
    sent = bytes.fromhex(apdu)
    return sent[5:5 + sent[4]] if len(sent) > 5 else b""


class Play:
    """A play of a victim's deck with more lines, whose rules are counted."""

    def __init__(self, victim, lines):
        self.victim, self.lines, self.watch = victim, lines, Watch(rules_of(victim.deck))
        self.selected = None
        self.results = traced(lines)

    def run(self):
        """Counts the rules over the whole play, and returns the number of events."""
        for number, line in enumerate(self.lines, 1):
            if number in self.results and not line.startswith("#"):
                self.statement(number, line.split(), *self.results[number])
        return self.watch.events

    def commands(self):
        """The commands of the play, each with its turns."""
        return [(line[5:], self.results[number][0]) for number, line in enumerate(self.lines, 1) if line.startswith("apdu ") and number in self.results]

    def statement(self, number, words, turns, result):
        """What one line did."""
        is_stop = result.startswith("off") or result == "6581"
        if result == "mute":
            return
        if words[0] == "power" and not is_stop:
            self.end_session()
        elif words[0] == "select" and result == "9000":
            if self.victim.aid in (self.selected, words[1]):
                self.watch.happened("session")
            self.selected = words[1]
        elif " ".join(words) == self.victim.load and result == "9000":
            self.watch.created()
        elif words[0] == "delete" and words[1] == self.victim.aid and result == "9000":
            self.watch.deleted()
        elif words[0] == "dump" and words[1] == self.victim.aid and result.startswith("static"):
            self.watch.static(bytes.fromhex(result[6:].replace(" ", "")))
        elif words[0] == "apdu" and self.selected is not None:
            self.command(number, words[1], turns, result, is_stop)
        if is_stop:
            self.end_session()

    def end_session(self):
        """The session ends, if there is one."""
        if self.selected == self.victim.aid:
            self.watch.happened("session")
        self.selected = None

    def command(self, number, apdu, turns, result, is_stop):
        """A command to the selected application, and what its chain did."""
        if re.match("FF|BE|00A404", apdu):
            return
        is_first = self.selected == self.victim.aid
        depth, data = "1" if is_first else DEPTHS.get(self.selected, "2"), data_of(apdu)
        if is_first:
            self.watch.happened("command", apdu)
        done = turns[:-1] if result.startswith("abend") else turns
        for turn in done:
            if turn[0] == depth and self.watch.exists:
                self.watch.turn(turn, data)
        if is_stop:
            kept = next((self.results[it][1] for it in range(number + 1, len(self.lines) + 1) if self.lines[it - 1] == f"dump {self.victim.aid}"), None)
            hit = hit_turn(self.lines, number, turns, self.victim.aid, kept)
            if hit is not None and hit[0] == depth:
                self.watch.turn(hit, data)
        elif self.watch.rules.never and re.match("abend 0[^7]", result) and self.watch.exists and turns and turns[-1][0] == depth:
            raise Broken("abend")
        elif is_first:
            self.watch.happened("answer", apdu, result)
        self.watch.frame_ended()


# ---- the moments that a text names


def values_of(text):
    """A set of values: two-digit numbers and ranges of them."""
    found = set()
    for part in text.split(","):
        low, _, high = part.partition("-")
        found |= set(range(int(low, 16), int(high or low, 16) + 1))
    return found


def moments_of(text):
    """The moments of a text of `mellab prove`: by whether there is a session and the allowances, what static bytes can be."""
    found = {}
    for line in text.splitlines():
        if made := re.fullmatch(r"(idle|session)((?: \w+ \d+)*):(.*)", line):
            words = made.group(2).split()
            facts = {int(at): values_of(it) for at, it in re.findall(r"SB\[(\d+)\] (\S+)", made.group(3))}
            found[made.group(1), tuple(int(it) for it in words[1::2])] = facts
    return found


class Looked(Watch):
    """Counts rules, and looks up each moment at which static bytes are seen."""

    def __init__(self, rules, moments, is_in_session):
        super().__init__(rules)
        self.moments, self.is_in_session, self.looked = moments, is_in_session, 0

    def static(self, held):
        super().static(held)
        key = ("session" if self.is_in_session() else "idle", tuple(self.left.values()))
        if key not in self.moments or any(held[at] not in values for at, values in self.moments[key].items()):
            raise Broken(f"{key} {held.hex()}")
        self.looked += 1


def look(victim, lines, text):
    """How many moments of a play were looked up in a text, and are as it says."""
    play = Play(victim, lines)
    play.watch = Looked(rules_of(victim.deck), moments_of(text), lambda: play.selected == victim.aid)
    play.run()
    return play.watch.looked


# ---- random applications


def operand(r, n):
    """An operand of n bytes."""
    return r.choice([f"SB[{r.randint(0, 8 - n)}]", f"SB[{r.randint(0, 8 - n)}]", f"DB[{r.randint(0, 4 - n)}]", f"PB[{r.randint(0, 5)}]",
                     f"PT[-{r.randint(10, 13)}]", f"DT[-{r.randint(n, n + 2)}]"])


def instructions(r):
    """Some instructions, at random."""
    n, labels = r.choice([1, 1, 2, 2, 3]), "abcd"
    one, other = operand(r, n), operand(r, n)
    return r.choice([
        [f"LOAD {one},{n}"], [f"STORE {one},{n}"], [f"LOAD {one},{n}", f"STORE {other},{n}"], [f"PUSHB {r.randrange(256)}"], ["POPB"],
        [f"{r.choice(['CMPB', 'ADDB', 'SUBB', 'SETB'])} {operand(r, 1)},{r.choice([0, 1, 2, 3, 127, 255])}"],
        [f"{r.choice(['CMPW', 'ADDW', 'SUBW', 'SETW'])} {operand(r, 2)},{r.choice([0, 1, 255, 256, 65535])}"],
        [f"{r.choice(['CLEARN', 'TESTN', 'INCN', 'DECN', 'NOTN'])} {one},{n}"],
        [f"LOAD {one},{n}", f"{r.choice(['CMPN', 'ADDN', 'SUBN', 'ANDN', 'ORN', 'XORN'])} {other},{n}", f"POPN {n}"],
        [f"TESTN {one},{n}", f"JUMP {r.choice(['EQ', 'NE'])},{r.choice(labels)}", f"DECN {one},{n}"],
        [f"JUMP {r.choice(['EQ', 'LT', 'LE', 'GT', 'GE', 'NE'])},{r.choice(labels)}"], [f"CALL {r.choice(['EQ', 'LT', 'ALL'])},{r.choice(labels)}"],
        [r.choice(["RET", "RETO 1", "RETI 1"])], [f"PRIM 3,{r.randrange(4)}"], [f"PRIM 1,{r.randrange(4)},{r.randrange(256)},{r.randrange(256)}"],
        [f"PRIM {r.choice([2, 3])},{n},{r.randint(1, 8 * n - 1)}"], ["PRIM 2"], [f"LOADA {operand(r, 3)}", "PRIM 8"],
        [f"LOAD {operand(r, 1)},1", "INDEX SB[0],2", "LOADI 1"], [f"LOAD {operand(r, 1)},1", "PRIM 1,0,3", "INDEX SB[4],1", "PUSHB 9", "STOREI 1"],
    ])


def code(r):
    """The code of an application, at random: three commands, and routines that they share."""
    lines = ["CMPB PT[-12],0x10", "JUMP EQ,a", "CMPB PT[-12],0x20", "JUMP EQ,b", "JUMP ALL,c"]
    for label in "abcd":
        body = [it for _ in range(r.randint(3, 8)) for it in instructions(r)]
        lines += [f"{label}: {body[0]}", *body[1:], r.choice(["EXIT", "EXITLA 2", "EXITSW 0x6985", "RET"])]
    return "\n".join(lines)


def application(seed):
    """A random application with rules that break nothing, and keep moments apart."""
    r = random.Random(f"application {seed}")
    data = "".join(f"{r.choice([0, 1, 2, 3, 255, r.randrange(256)]):02X}" for _ in range(8))
    deck = (f"format\npower\napp any A000000330\n{code(r)}\nDATA {data}\nend\nload any 8 4\n#@ app any\n#@ allow asked 0\n"
            "#@ on command ??10* allow asked 1\n#@ on command ??20* allow asked 2\n#@ on session allow asked 0\n"
            "#@ allow seen 0\n#@ on turn *CMP*1 allow seen 1\n#@ on answer * gives *6985 allow seen 0\n")
    liked = [f"80{r.choice(['10', '20', '30'])}{r.choice(['00', '01', 'FF'])}{r.randrange(256):02X}{it}"
             for it in ("", "00", "02", "020001", "03FF0102", "0400000000", "020100") for _ in range(2)]
    return Victim(deck, "A000000330", "load any 8 4", tuple(liked))


# ---- the attack


def relays_to(aid):
    """Applications of which each delegates to the one before it, the first to a victim."""
    return [line for i, (relay, other) in enumerate(zip(RELAYS, (aid, *RELAYS)))
            for line in RELAYING.format(name=f"relay{i}", aid=relay, next=other).splitlines()]


def hostile(victim, seed, count=60):
    """A victim's deck, and lines that a hostile host sends after it."""
    r = random.Random(seed)
    deck = [it for it in victim.deck.splitlines() if it.split()[:1] != ["select"]]
    lines = [*deck, *relays_to(victim.aid), f"select {victim.aid}"]
    back = ["power", f"dump {victim.aid}"]
    for _ in range(count):
        kind = r.random()
        apdu = f"apdu {r.choice(victim.liked) if r.random() < 0.85 else r.randbytes(4).hex().upper()}"
        if kind < 0.18:
            stop = f"cut {r.randint(1, 9)} {r.choice(['0000000000000000', 'FFFFFFFFFFFFFFFF', '0123456789ABCDEF'])}"
            lines += [f"dump {victim.aid}", stop if r.random() < 0.7 else f"fail {r.randint(1, 7)}", apdu, *back, f"select {victim.aid}"]
        elif kind < 0.28:
            lines += [f"budget {r.randint(1, 30)}", apdu, apdu, "budget 10000", f"dump {victim.aid}"]
        elif kind < 0.36:
            lines += [f"select {r.choice(RELAYS)}", apdu, apdu, f"select {victim.aid}"]
        elif kind < 0.40:
            lines += ["power", f"select {victim.aid}"]
        elif kind < 0.43:
            lines += ["power", f"delete {victim.aid}", f"select {r.choice(RELAYS)}", apdu, victim.load, f"dump {victim.aid}", f"select {victim.aid}"]
        else:
            lines.append(apdu)
    return [*lines, *back]


def proves(victim):
    """What `mellab prove` says of a victim's deck."""
    done = subprocess.run([program_path("mellab"), "prove"], input=victim.deck, stdout=subprocess.PIPE, text=True, timeout=100, check=False)
    return done.returncode, done.stdout


def without_help(text):
    """A text without what follows ` ; ` in its lines."""
    return [line.partition(" ; ")[0] for line in text.splitlines()]


def test_the_texts_of_decks_are_those_of_another_program():
    with tarfile.open(DECKS) as packed:
        files = {pathlib.PurePath(it.name).name: packed.extractfile(it).read() for it in packed.getmembers() if it.isfile()}
    names = [it[:-len(".deck")] for it in files if it.endswith(".deck")]
    assert len(names) == 72
    for name in names:
        done = subprocess.run([program_path("mellab"), "prove"], input=files[f"{name}.deck"], stdout=subprocess.PIPE, timeout=100, check=False)
        assert without_help(done.stdout.decode()) == without_help(files[f"{name}.txt"].decode()), name


# A byte that protection drops: what is loaded from it is not the constant that was stored.
DROPPED = """format
power
app a A000000001
        PRIM 3,2
        PUSHB 7
        STORE SB[1],1
        PRIM 3,0
        LOAD SB[1],1
        ADDN SB[0],1
        EXIT
end
load a 2 0
#@ app a
#@ sum s 0
#@ on turn *ADDN SB[0],1* add s 7
#@ always SB[0..0] = 0 + s
"""
# A sum of 17 bytes, of which the lower 16 are taken again.
LONG = """format
power
app a A000000001
        NOP
        EXIT
end
load a 17 0
#@ app a
#@ sum s 0
#@ on turn *NOP* add s PB[0..16]
#@ on turn *NOP* take s PB[1..16]
#@ always SB[0..16] = 0 + s
"""


@pytest.mark.parametrize("deck, broken", [(DROPPED, "broken SB[0..0] line 16 at 0010"), (LONG, "broken SB[0..16] line 12 at 0000")])
def test_a_sum_that_is_not_kept_is_broken(deck, broken):
    done = subprocess.run([program_path("mellab"), "prove"], input=deck, stdout=subprocess.PIPE, text=True, timeout=100, check=False)
    assert done.returncode == 1
    assert without_help(done.stdout)[-2] == broken and done.stdout.splitlines()[-1].startswith("not proved keys ")


@pytest.mark.parametrize("name", VICTIMS)
def test_no_attack_breaks_what_is_proved(name):
    status, text = proves(VICTIMS[name])
    assert status == 0 and text.splitlines()[-1].startswith("proved keys "), text
    events = sum(Play(VICTIMS[name], hostile(VICTIMS[name], f"{name} {seed}")).run() for seed in range(SEEDS))
    assert events > 100 * SEEDS


@pytest.mark.parametrize("name", VICTIMS)
def test_each_moment_of_an_attack_is_one_of_the_text(name):
    victim, text = VICTIMS[name], proves(VICTIMS[name])[1]
    assert sum(look(victim, hostile(victim, f"{name} {seed}"), text) for seed in range(SEEDS)) > 10 * SEEDS


def test_each_moment_of_a_random_application_is_one_of_its_text():
    looked = 0
    for seed in range(5 * SEEDS):
        victim = application(seed)
        status, text = proves(victim)
        assert status in (0, 1)
        if "unknown" not in text and moments_of(text):
            looked += look(victim, hostile(victim, f"any {seed}"), text)
    assert looked > 50 * SEEDS


@pytest.mark.parametrize("door", DOORS)
def test_an_attack_finds_each_door_and_so_does_the_proof(door):
    victim, rule = DOORS[door]
    status, text = proves(victim)
    assert status == 1 and text.splitlines()[-1].startswith("not proved keys "), text
    assert re.search(f"^broken {rule} line", text, re.MULTILINE), text
    with pytest.raises(Broken):
        for seed in range(20 * SEEDS):
            Play(victim, hostile(victim, f"{door} {seed}")).run()


# A counter whose allowance has more values than there may be keys.
MANY = """format
power
app counter A000000001
INCN SB[0],2
EXIT
end
load counter 2 0
#@ app counter
#@ allow left 4000000000
#@ on turn *INCN* spend left 1
"""


def bounded(room):
    """What `mellab prove` does of it in some bytes of memory: its status and its text."""
    done = subprocess.run([program_path("mellab"), "prove"], input=MANY, stdout=subprocess.PIPE, text=True, timeout=100, check=False,
                          preexec_fn=lambda: resource.setrlimit(resource.RLIMIT_AS, (room, room)))
    return done.returncode, done.stdout


def test_there_are_at_most_a_million_keys():
    assert bounded(2 << 30) == (1, "not proved keys 1000000\n")


def test_out_of_memory_is_a_status_and_no_text():
    assert [bounded(room << 20) for room in (64, 150, 250)] == [(5, "")] * 3
