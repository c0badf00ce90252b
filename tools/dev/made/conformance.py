"""Makes conformance/, decks by topic with their transcripts, of the examples, the worked rows of the definitions, and a list of instructions.

    tools/dev/make [--check] conformance

A host sees no static bytes, so each deck reads them by a command: its applications get a command INS 00 before their code, which answers a
block of static bytes, and the deck sends it after each power-up and after a last one. Where an application has such a command of its own, or its
size matters, that one is sent.

Decks with `poke` are left out, since a card has no command that sets its words. The decks of WRITTEN are written by hand, and only their
transcripts are made. A deck is played by `melcard`; the script ends with 1 if melcard answers a line of a worked row other than its law
computes. With --check nothing is written, and it ends with 1 if a file is not up to date.

It needs Python 3.9, and melcard, built by tools/build or by `rt ci`.
"""

import argparse
import subprocess
import sys
from pathlib import Path
from typing import Dict, Iterator, List, Optional, Sequence, Tuple

from card import program_path
from labtexts import lines_of
from units import Unit, load_commands, statements, units_of

from . import probes, rows

TOP = Path(__file__).resolve().parent.parent.parent.parent
FOLDER = TOP / "conformance"
# The topic of an example, and what the topics of rows are; a row with a cut or a failed write is of that topic.
EXAMPLES = {"abends": "machine", "counter": "commands", "cut": "cuts", "delegation": "delegation", "denied": "commands",
            "diversified": "primitives", "file": "commands", "purse": "transactions", "two_counters": "sessions", "wallet": "delegation"}
ROWS = {"plays": "commands", "cuts": "cuts", "delegations": "delegation", "primitives": "primitives"}
MACHINE = ("carry_and_zero", "call_and_return", "last_static_byte", "budgets", "endless", "undefined_tag", "no_primitive")
OTHERS = {"session_bytes": "sessions", "public_bytes": "sessions", "no_stale_byte": "sessions", "abend_after_a_write": "transactions",
          "transaction_without_commit": "transactions", "too_many_pending_words": "transactions", "most_pending_words": "transactions",
          **{name: "machine" for name in MACHINE}}
WORDS = ("0000 0000", "0001 FFFF", "FFFF 0001", "7FFF 8000", "1234 1234", "00FF 0100", "8000 7FFF", "ABCD 0F0F")
# A word at PB[0] and, where there are two, one at PB[2] or on the stack; what is left is answered, and the flags behind it, 2 for C, 1 for Z.
BLOCKS = ("CMPN", "ADDN", "SUBN", "ANDN", "ORN", "XORN")
SINGLES = ("TESTN", "INCN", "DECN", "NOTN", "CLEARN")
IMMEDIATES = ("CMPB {r},0x34", "ADDB {r},0x34", "SUBB {r},0x34", "SETB {r},0x34", "CMPW {r},0x1234", "ADDW {r},0x1234", "SUBW {r},0x1234",
              "SETW {r},0x1234")
BITS = ("PRIM 1,0,0x0F", "PRIM 1,1,0x0F", "PRIM 1,2,0x0F", "PRIM 1,3,0x0F", "PRIM 1,0,0x0F,0xF0", "PRIM 1,1,0x0F,0xF0", "PRIM 1,2,0x0F,0xF0",
        "PRIM 1,3,0x0F,0xF0", "PRIM 2,2,1", "PRIM 2,2,9", "PRIM 3,2,1", "PRIM 3,2,9", "PRIM 3,1,7", "PRIM 2,1,7")

# Decks that are written by hand, in their folders.
WRITTEN: Dict[str, Tuple[str, ...]] = {
    "commands": ("by_hand",), "transactions": ("halves", "waiting_writes"), "sessions": ("abend_keeps_the_session",),
    "delegation": ("marks_of_a_chain", "own_bytes")}
# What reads the static bytes of an application, if it is not the command that is put before its code: its name and its commands.
COUNT = (("A000000001", ("8001000002",)),)
READ = {"cut_before_a_creation": COUNT, "cut_behind_a_creation": COUNT, "last_write_of_a_load": COUNT, "label_behind_the_name": COUNT,
        "purse_row": (("A000000002", ("8050000004",)),), "file": (("A000000020", ("80B0000010", "80B0024810")),),
        "wallet": (("A000000010", ("8050000004", "8060000006", "8060000106", "8060000206", "8060000306")), ("A000000011", ("8050000004",)))}
# Decks whose applications are left as they are: their turns are counted, or no application writes a static byte.
AS_THEY_ARE = ("budgets", "diversified")
CARD_LINES = ("power", "load", "select", "delete", "apdu")
BLOCK = 250  # static bytes that one command reads, at the most

# A deck: its topic, its name, its text, and its transcript if that is known.
Deck = Tuple[str, str, str, Optional[str]]


def of_rows() -> Iterator[Deck]:
    """The decks of the worked rows."""
    for topic, at in ROWS.items():
        for name, _, deck, told in rows.laws(topic, "deck_transcript"):
            text = rows.Text(deck).whole()
            words = {line.split()[0] for line in text.splitlines() if line.split()}
            if "format" in words and "poke" not in words:
                place = "failed_writes" if "fail" in words else OTHERS.get(name, "cuts" if "cut" in words else at)
                yield place, f"{name}_row" if name in EXAMPLES else name, f"# {name.replace('_', ' ').capitalize()}.\n{text}", after_comment(rows.Text(told).whole())


def after_comment(transcript: str) -> str:
    """A transcript whose deck has one more line before it."""
    numbered = (line.partition(" ") for line in transcript.splitlines())
    return "".join(f"{int(number) + 1} {result}\n" for number, _, result in numbered)


def of_examples() -> Iterator[Deck]:
    """The example decks."""
    for name, topic in EXAMPLES.items():
        text = (TOP / "examples" / f"{name}.deck").read_text(encoding="utf-8")
        yield topic, name, text, None


def instructions(name: str, title: str, sections: List[Tuple[str, int]]) -> Deck:
    """A deck with a section for each code, which answers so many bytes to each pair of words."""
    text = f"# {title}\nformat\npower\n"
    aids = [f"A0000008{place:02X}" for place in range(len(sections))]
    for aid, (code, _) in zip(aids, sections):
        text += f"app a{aid} {aid}\n{code}end\n"
    for aid, (_, size) in zip(aids, sections):
        text += f"load a{aid} 0 0\nselect {aid}\n"
        text += "".join(f"apdu 8000000004{words.replace(' ', '')}{size:02X}\n" for words in WORDS)
        text += "select A000000800\n" if aid != aids[0] else ""
    return "machine", name, text, None


def of_instructions() -> Iterator[Deck]:
    """The instructions that calculate, at an address and on the stack, with the flags after them."""
    at_address = [(f"LOAD PB[2],2\n{word} PB[0],2\nPRIM 2\nSTORE PB[2],1\nEXITLA 3\n", 3) for word in BLOCKS]
    at_address += [(f"{word} PB[0],2\nPRIM 2\nSTORE PB[2],1\nEXITLA 3\n", 3) for word in SINGLES]
    at_address += [(f"{word.format(r='PB[0]')}\nPRIM 2\nSTORE PB[2],1\nEXITLA 3\n", 3) for word in IMMEDIATES]
    yield instructions("at_an_address", "Instructions on bytes at an address, and C and Z after them.", at_address)
    on_stack = [(f"LOAD PB[0],4\n{word} 2\nPRIM 2\nSTORE PB[0],5\nEXITLA 5\n", 5) for word in BLOCKS]
    on_stack += [(f"LOAD PB[0],2\n{word} 2\nPRIM 2\nSTORE PB[0],3\nEXITLA 3\n", 3) for word in SINGLES]
    on_stack += [(f"LOAD PB[0],2\n{word.replace('{r},', '')}\nPRIM 2\nSTORE PB[0],3\nEXITLA 3\n", 3) for word in IMMEDIATES]
    yield instructions("on_the_stack", "The same instructions on the top of the stack.", on_stack)
    bits = [(f"LOAD PB[0],2\n{word}\nPRIM 2\nSTORE PB[0],3\nEXITLA 3\n", 3) for word in BITS]
    topic, name, text, _ = instructions("bits_and_shifts", "Bit operations and shifts, and C and Z after them.", bits)
    yield "primitives", name, text, None


def counter(name: str, aid: str, more: str = "") -> str:
    """A section of an application that counts in its first two static bytes, but with INS 00 reads them; and further code."""
    return f"app {name} {aid}\nCMPB PT[-12],0x00\nJUMP EQ,read\nINCN SB[0],2\nread: LOAD SB[0],2\nSTORE PB[0],2\nEXITLA 2\n{more}end\n"


def asked(numbers: Sequence[int], front: str) -> str:
    """Lines that select applications by the ends of their names, and read them."""
    return "".join(f"select {front}{it:02X}\napdu 8000000002\n" for it in numbers)


def of_rooms() -> Iterator[Deck]:
    """A card that is full of bytes, and one that is full of applications."""
    front, large = "A0000009", 15
    text = "# A card without room: the next large application is refused, and all else stays. Two holes beside each other become one.\nformat\npower\n"
    text += "".join(counter(f"a{it}", f"{front}{it:02X}") for it in range(large + 1))
    text += counter("wide", f"{front}FF", "NOP\n" * 100)
    text += "".join(f"load a{it} 4096 0\n" for it in range(large))
    text += f"select {front}03\napdu 8001000002\nload a{large} 4096 0\napdu 8001000002\n"
    text += "# an open load outlives one that is refused\n"
    text += "apdu BE1200000C0001000000000000000B0000\napdu BE1200000C2000100000000000000B0000\napdu BE2400000104\n"
    text += asked([0, 3, large - 1], front) + f"select {front}{large:02X}\npower\n"
    text += f"delete {front}05\ndelete {front}07\ndelete {front}06\nload wide 4096 0\nload a{large} 4096 0\nload a5 4096 0\n"
    text += f"select {front}FF\napdu 8001000002\npower\n" + asked([3, 4, 8, large, 0xFF], front)
    yield "commands", "no_room", text, None
    text = "# A card has 32 applications at the most, and room for another once one is deleted.\nformat\npower\n"
    text += "".join(counter(f"a{it}", f"{front}{it:02X}") for it in range(33)) + "".join(f"load a{it} 2 0\n" for it in range(33))
    text += f"select {front}00\napdu 8001000002\nselect {front}20\npower\ndelete {front}00\nload a32 2 0\nload a0 2 0\n"
    text += f"select {front}20\napdu 8001000002\npower\n" + asked([1, 31, 32], front) + f"select {front}00\n"
    yield "commands", "thirty_three", text, None


def of_access() -> Iterator[Deck]:
    """Applications that were each loaded with a bit of the access list, and try what each bit denies; a count before it is kept."""
    body = "CMPB PT[-12],0x00\nJUMP EQ,read\nINCN SB[0],2\nCMPB PT[-12],0x11\nJUMP EQ,call\nCMPB PT[-12],0x12\nJUMP EQ,caller\n"
    body += "CMPB PT[-12],0x13\nJUMP EQ,wait\nLOADA PB[8]\nLOADA PB[8]\nLOADA PB[8]\nPRIM 4,8\nEXITLA 16\ncall: LOADA SB[2]\nPRIM 7\nEXIT\n"
    body += "caller: LOADA PB[8]\nPRIM 8\nEXITLA 2\nwait: PRIM 3,2\nINCN SB[0],2\nPRIM 3,1\nread: LOAD SB[0],2\nSTORE PB[0],2\nEXITLA 2\n"
    text = "# Each bit of an access list denies its primitives and no other: ciphers, Delegate, Get Delegator AID, Set Transaction Protection.\n"
    text += "format\npower\n"
    for access in (0, 1, 2, 4, 8):
        aid = f"A0000007{access:02X}"
        unit = units_of(lines_of(f"app a {aid}\n{body}DATA 000005A0000007FF\nend\n"))["a"]
        text += "".join(f"apdu {it.hex().upper()}\n" for it in load_commands(unit, 8, 0, access))
        text += f"select {aid}\n" + "".join(f"apdu 80{ins:02X}000010\n" for ins in (0x10, 0x11, 0x12, 0x13)) + "apdu 8000000002\n"
    text += "power\n" + asked([0, 1, 2, 4, 8], "A0000007")
    yield "commands", "access_bits", text, None


# ---- reading


def reading_code(block: int) -> bytes:
    """The code that answers the static bytes from P2 * block on to INS 00, and leaves the flags clear for all other commands."""
    size = block.to_bytes(1, "big")
    # CMPB PT[-12],0 · BRANCH NE over the rest · LOAD PT[-10],1 · INDEX SB[0],block · LOADI block · STORE PB[0],block · EXITLA block
    return bytes.fromhex("7700FFF40E113F01FFF661") + size + bytes.fromhex("000048") + size + b"\x46" + size + bytes.fromhex("0000") \
        + b"\x06" + block.to_bytes(2, "big")


def block_of(static: int) -> int:
    """The longest block of which whole ones make up so many static bytes."""
    return next(it for it in range(min(static, BLOCK), 0, -1) if static % it == 0)


def size_of(byte: int) -> int:
    """The number of bytes of an instruction that begins with this one."""
    op, tag = divmod(byte, 8)
    if op in (0, 5):
        return 2 + tag if op == 5 and tag < 4 else 1 + (2 - op // 5) * ((tag & 1) + (tag >> 1 & 1))
    if op < 5:
        return ((), (1,) + (2,) * 7, (1,) + (3,) * 7, (1,) + (3,) * 7, (2, 2, 3, 1, 2, 1, 1, 1))[op][tag]
    immediate = 2 if 0x11 <= op <= 0x14 else 0 if op == 0x0B else 1
    return 1 + immediate + (2 if tag else 0)


def jumps_in(code: bytes) -> bool:
    """Whether code has a JUMP or CALL, whose address a command before it would move."""
    at = 0
    while at < len(code):
        if code[at] // 8 in (2, 3):
            return True
        at += size_of(code[at])
    return False


def with_reading(name: str, lines: List[str]) -> Tuple[List[str], Dict[str, int]]:
    """The lines of a deck in which applications have the reading command, and the static bytes of these applications by name."""
    units = units_of(lines)
    static = {fields[1]: int(fields[2]) for _, fields in statements(lines) if fields[0] == "load" and int(fields[2])}
    found = list(lines)
    for number, fields in statements(lines):
        if fields[0] not in ("unit", "app") or fields[1] not in static:
            continue
        code = reading_code(block_of(static[fields[1]]))
        if fields[0] == "app":
            found[number - 1] += "\n" + assembly(block_of(static[fields[1]]))
        elif jumps_in(units[fields[1]].code):
            sys.exit(f"tools/dev/make conformance: {name} has an application that a command before its code would move")
        else:
            found[number - 1] = f"unit {fields[1]} {unit_text(units[fields[1]], code)}"
    return "\n".join(found).split("\n"), {units[it].aid: size for it, size in static.items()}


def assembly(block: int) -> str:
    """The reading command as lines of a section."""
    return f"CMPB PT[-12],0x00\nBRANCH NE,conform\nLOAD PT[-10],1\nINDEX SB[0],{block}\nLOADI {block}\nSTORE PB[0],{block}\nEXITLA {block}\nconform: NOP"


def unit_text(unit: Unit, front: bytes) -> str:
    """The hexadecimal of a unit whose code has other code before it."""
    parts = (front + unit.code, unit.data, unit.directory, unit.fci, b"", b"")
    return (bytes(8) + b"".join(len(it).to_bytes(2, "big") + it for it in parts)).hex().upper()


class Seeing:
    """A deck that reads what it is about."""

    def __init__(self, name: str, deck: str) -> None:
        self.name = name
        self.is_own = name in READ
        # A command that counts changes what it reads, so it is sent at the end alone.
        self.counts = READ.get(name) is COUNT
        lines = lines_of(deck)
        self.lines, self.static = (lines, {}) if self.is_own else with_reading(name, lines)
        self.made: List[str] = []

    def commands(self, played: List[str]) -> List[str]:
        """The lines that read the applications which a deck leaves on the card."""
        if self.is_own:
            own: Sequence[Tuple[str, Sequence[str]]] = READ[self.name]
            return [line for aid, them in own for line in (f"select {aid}", *(f"apdu {it}" for it in them if not ended_absent(played, aid)))]
        found = []
        for aid, size in self.static.items():
            block = block_of(size)
            reads = [f"apdu 8000{at:04X}{block:02X}" for at in range(size // block)]
            found += [f"select {aid}", *([] if ended_absent(played, aid) else reads)]
        return found

    def text(self) -> str:
        """The deck: after each power-up of a card with a load, and after a last one, it reads."""
        kinds = [""] * len(self.lines)
        for number, fields in statements(self.lines):
            kinds[number - 1] = fields[0]
        results = results_of(transcript("".join(f"{line}\n" for line in self.lines)))
        for at, (line, kind) in enumerate(zip(self.lines, kinds)):
            self.made.append(line)
            if kind == "power" and "load" in kinds[:at] and not self.counts and results.get(at + 1, "").startswith("ready"):
                after = next((it for it in kinds[at + 1:] if it in CARD_LINES), "")
                self.made += self.commands(self.lines[:at + 1])
                self.made += ["power"] if after not in ("select", "") else []
        is_to_read = self.counts or any(it in CARD_LINES for it in kinds[last_power(kinds) + 1:])
        if is_to_read and (read := self.commands([*self.lines, "power"])):
            self.made += ["power", *read]
        return "".join(f"{line}\n" for line in self.made)


def last_power(kinds: List[str]) -> int:
    """The place of the last power-up."""
    return max((at for at, it in enumerate(kinds) if it == "power"), default=-1)


def ended_absent(lines: List[str], aid: str) -> bool:
    """Whether a deck leaves no application of this name."""
    return transcript("".join(f"{line}\n" for line in [*lines, f"dump {aid}"])).endswith(" absent\n")


def results_of(text: str) -> Dict[int, str]:
    """The results of a transcript by their lines."""
    return {int(number): result for number, _, result in (line.partition(" ") for line in text.splitlines())}


def seeing(name: str, deck: str) -> Tuple[str, List[str]]:
    """A deck that reads, and the results that the lines of the deck without it have in that one, in their order."""
    if name in AS_THEY_ARE or "load" not in {fields[0] for _, fields in statements(lines_of(deck))}:
        return deck, list(results_of(transcript(deck)).values())
    made = Seeing(name, deck)
    text = made.text()
    results, kept, rest = results_of(transcript(text)), [], list(made.lines)
    for number, line in enumerate(made.made, 1):
        if rest and line == rest[0]:
            rest.pop(0)
            kept += [results[number]] if number in results else []
    return text, kept


def transcript(deck: str) -> str:
    """What melcard writes of a deck."""
    done = subprocess.run([program_path("melcard"), "play"], input=deck.encode(), stdout=subprocess.PIPE, check=False)
    if done.returncode:
        sys.exit(f"tools/dev/make conformance: melcard ended with {done.returncode}: {done.stdout.decode()}")
    return done.stdout.decode()


def add(found: Dict[Path, str], topic: str, name: str, deck: str) -> None:
    """Adds a deck and its transcript."""
    path = FOLDER / topic / f"{name}.deck"
    if path in found:
        sys.exit(f"tools/dev/make conformance: there are two decks {topic}/{name}")
    found[path], found[path.with_suffix(".txt")] = deck, transcript(deck)


def files() -> Dict[Path, str]:
    """All files of the folder."""
    found: Dict[Path, str] = {}
    for topic, name, deck, wanted in [*of_examples(), *of_rows()]:
        text, results = seeing(name, deck)
        if wanted is not None and results != list(results_of(wanted).values()):
            sys.exit(f"tools/dev/make conformance: melcard answers lines of {name} other than its law has")
        add(found, topic, name, text)
    for topic, name, deck, _ in [*of_instructions(), *of_rooms(), *of_access()]:
        add(found, topic, name, deck)
    for topic, name, deck, is_seen in probes.decks():
        add(found, topic, name, seeing(name, deck)[0] if is_seen else deck)
    for topic, names in WRITTEN.items():
        for name in names:
            add(found, topic, name, (FOLDER / topic / f"{name}.deck").read_text(encoding="utf-8"))
    return found


def main(given_words: List[str]) -> int:
    words = argparse.ArgumentParser(description="Makes the decks of conformance/ by topic, with their transcripts.")
    words.add_argument("--check", action="store_true", help="write nothing, and end with 1 if a file is not up to date")
    given = words.parse_args(given_words)
    made = files()
    stale = [path for path, text in made.items() if not path.exists() or path.read_text(encoding="utf-8") != text]
    stale += [path for path in sorted(FOLDER.rglob("*.*")) if path.suffix in (".deck", ".txt") and path not in made]
    for path in stale:
        if given.check:
            print(f"{path.relative_to(TOP)} is not up to date: run tools/dev/make conformance")
        elif path in made:
            path.parent.mkdir(parents=True, exist_ok=True)
            path.write_text(made[path], encoding="utf-8")
        else:
            path.unlink()
    return 1 if given.check and stale else 0
