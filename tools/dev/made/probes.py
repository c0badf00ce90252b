"""Decks of probes for tools/dev/make conformance: small applications, each with the commands that show one thing, and the refusals of the manager."""

from __future__ import annotations

from typing import Iterator, List, Tuple

# An application: its code, its static and its session bytes, and what is sent to it after its selection.
Probe = Tuple[str, int, int, List[str]]

CONDITIONS = "".join(f"CMPB PB[0],0x05\nJUMP {word},y{word}\nJUMP ALL,n{word}\ny{word}: ADDB PB[1],{1 << at}\nn{word}: NOP\n"
                     for at, word in enumerate(("EQ", "LT", "LE", "GT", "GE", "NE"))).replace(": NOP", ": SETB PB[2],0")
FLAGS = "PRIM 2\nSTORE PB[0],1\nEXITLA 1\n"
MACHINE: List[Probe] = [
    ("CALL ALL,sub\nLOADA LB[0]\nSTORE PB[0],2\nEXITLA 2\nsub: RET\n", 0, 0, ["apdu 8001000002"]),
    (f"SETB PB[1],0\n{CONDITIONS}EXITLA 2\n", 0, 0, ["apdu 80010000010402", "apdu 80010000010502", "apdu 80010000010602"]),
    (f"CMPB PB[0],0x05\nLOAD PB[0],2\nPOPN 2\nPUSHB 1\nSTORE PB[1],1\n{FLAGS}", 0, 0, ["apdu 80010000010401", "apdu 80010000010501"]),
    ("POPB\nEXIT\n", 0, 1, ["apdu 80010000"]),
    ("PUSHZ 255\nPUSHZ 255\nPUSHW 1\nCMPB PT[-12],0x01\nJUMP EQ,end\nPUSHB 1\nend: EXIT\n", 0, 0, ["apdu 80010000", "apdu 80020000"]),
    ("LOAD DT[0],1\nEXIT\n", 0, 0, ["apdu 80010000"]), ("LOAD PT[-1],2\nEXIT\n", 0, 0, ["apdu 80010000"]),
    ("LOAD PT[-1],1\nSTORE PB[0],1\nEXITLA 1\n", 0, 0, ["apdu 8001000001"]),
    ("INCN PB[0],17\nEXIT\n", 0, 0, ["apdu 80010000"]), ("PUSHZ 17\nADDN PB[0],17\nEXIT\n", 0, 0, ["apdu 80010000"]),
    ("PUSHB 0xFF\nINDEX PB[0],2\nSTORE PB[0],2\nEXITLA 2\n", 0, 0, ["apdu 8001000002"]),
    ("CALL ALL,sub\nEXIT\nsub: RETO 1\n", 0, 0, ["apdu 80010000"]), ("EXITLA 1025\n", 0, 0, ["apdu 80010000"])]
KEYS = "0123456789ABCDEF"
PRIMITIVES: List[Probe] = [
    ("LOADA PB[0]\nLOADA PB[16]\nLOADA PB[8]\nPRIM 5,8\nLOAD PB[16],8\nSTORE PB[0],8\nEXITLA 8\n", 0, 0, [f"apdu 8001000010{'11' * 8}{KEYS}08"]),
    ("LOADA PB[0]\nLOADA PB[32]\nLOADA PB[16]\nPRIM 11,16\nLOAD PB[32],16\nSTORE PB[0],16\nEXITLA 16\n", 0, 0, [f"apdu 8001000020{'22' * 16}{KEYS * 2}10"]),
    ("LOADA PB[16]\nLOADA PB[0]\nLOADA PB[24]\nLOADA PB[8]\nPRIM 8,8\nLOAD PB[24],8\nSTORE PB[0],8\nEXITLA 8\n", 0, 0, [f"apdu 8001000018{'33' * 8}{KEYS}{'5A' * 8}08"]),
    (f"LOADA PB[0]\nLOADA PB[2]\nPRIM 1,2\n{FLAGS}", 0, 0, ["apdu 80010000040001000201", "apdu 80010000040002000101", "apdu 80010000040001000101"]),
    (f"LOAD PB[0],1\nPRIM 3\n{FLAGS}", 0, 0, [f"apdu 8001000001{it:02X}01" for it in range(4)]),
    ("PRIM 2,2,16\nEXIT\n", 0, 0, ["apdu 80010000"]), ("PUSHW 1\nPRIM 2,2,16\nEXIT\n", 0, 0, ["apdu 80010000"]),
    ("LOAD PB[4],1\nLOADA PB[0]\nPRIM 4\nPRIM 2\nSTORE PB[0],2\nEXITLA 2\n", 0, 0, ["apdu 8001000005030708090702", "apdu 8001000005030708090102"]),
    ("LOADA PB[1]\nLOADA PB[0]\nPRIM 2,4\nEXITLA 5\n", 0, 0, ["apdu 8001000005010203040505"]),
    ("PUSHW 256\nLOADA PB[300]\nLOADA PB[0]\nPRIM 6\nEXIT\n", 0, 0, ["apdu 80010000"]), ("PUSHW 255\nLOADA PB[300]\nLOADA PB[0]\nPRIM 6\nEXIT\n", 0, 0, ["apdu 80010000"]),
    (f"LOAD PT[-11],1\nPRIM 1\n{FLAGS}", 0, 0, ["apdu 80010300010001", "apdu 80010400010001", "apdu 8001030001", "apdu 8001020001"]),
    (f"LOADA PB[0]\nPRIM 8\n{FLAGS}", 0, 0, ["apdu 8001000001"])]
SESSIONS: List[Probe] = [
    ("LOAD PT[-13],13\nSTORE PB[0],13\nEXITLA 13\n", 0, 0, ["apdu 80AB12340D", "apdu 80AB123402FFEE0D", "apdu 80AB1234000002FFEE000D", "apdu BE160000", "apdu 80AB12340D"])]
TRANSACTIONS: List[Probe] = [
    ("CMPB PT[-12],0x01\nJUMP NE,two\nPRIM 3,2\nSETB SB[0],1\nSETB SB[0],2\nPRIM 3,1\nEXIT\ntwo: CMPB PT[-12],0x02\nJUMP NE,three\nPRIM 3,2\nNOTN SB[8],72\n"
     "PRIM 3,1\nEXIT\nthree: CMPB PT[-12],0x03\nJUMP NE,four\nPRIM 3,2\nSETB SB[1],7\nEXIT\nfour: CMPB PT[-12],0x04\nJUMP NE,five\nSETB SB[1],9\nEXIT\n"
     "five: PRIM 3,4\nEXIT\n", 80, 0, ["apdu 80010000", "apdu 80020000", "apdu 80030000", "apdu 80040000", "apdu 80050000"])]


def text_of(title: str, base: int, found: List[Probe], more: str = "") -> str:
    """The deck of probes, whose names begin at a number."""
    lines = [f"# {title}", "format", "power"]
    for at, (code, _, _, _) in enumerate(found):
        lines += [f"app p{at} A00000{base + at:04X}", *code.splitlines(), "end"]
    for at, (_, static, session, sent) in enumerate(found):
        lines += [f"load p{at} {static} {session}", f"select A00000{base + at:04X}", *sent]
    return "\n".join(lines) + "\n" + more


def opened(code: int, static: int, data: int, session: int, directory: int, fci: int) -> str:
    """OPEN with these sizes."""
    return "apdu BE1200000C" + "".join(f"{it:04X}" for it in (code, static, data, session, directory, fci))


def load_of(name: str) -> List[str]:
    """A load of an application of this name up to CREATE, by hand."""
    directory = f"61{len(name) // 2 + 2:02X}4F{len(name) // 2:02X}{name}"
    return [opened(1, 0, 0, 0, len(directory) // 2, 0), "apdu BE2400000100", f"apdu BE200000{len(directory) // 2:02X}{directory}", "apdu BE160000"]


def refusals() -> str:
    """The refusals of SELECT and of the manager, with each limit."""
    found: List[Probe] = [("EXITLA 256\n", 0, 0, ["apdu 8001000000"]), ("EXIT\n", 0, 0, [])]
    lines = ["# the FCI is not asked for; a part of a name, no name", "apdu 00A4040C05A000000D0005", "apdu 00A4040C04A000000D", "apdu 00A4040C", "apdu 8001000000",
             "# sizes past their limits, and data past the static bytes"]
    lines += [opened(*it) for it in ((8193, 0, 0, 0, 9, 0), (1, 4097, 0, 0, 9, 0), (1, 0, 0, 257, 9, 0), (1, 0, 0, 0, 129, 0), (1, 0, 0, 0, 9, 129), (0, 0, 0, 0, 9, 0),
                                     (1, 1, 2, 0, 9, 0), (8192, 4096, 0, 256, 128, 128))]
    lines += ["# names of 4 and of 17 bytes; a refused CREATE ends no load", *load_of("A0000001"), "apdu BE160000", *load_of("A0" * 17), "apdu BE160000", *load_of("A0" * 16)]
    lines += ["# P1 P2 and data of CREATE and DELETE, a piece that is too long", *load_of("A000000D09")[:3], "apdu BE16000100", "apdu BE160001", "apdu BE1600000100",
              "apdu BE2000090100", "apdu BE18000105A000000D01", "# a deletion ends the load", "apdu BE18000005A000000D01", "apdu BE160000"]
    return text_of("Refusals of SELECT and of the manager, with each limit on its two sides.", 0x0D00, found, "\n".join(lines) + "\n")


READS = "CMPB PT[-12],0x00\nJUMP NE,on\nLOAD SB[0],{0}\nSTORE PB[0],{0}\nEXITLA {0}\non: "
B = ("PRIM 2\nSTORE PB[4],1\n" + READS.format(2) + "CMPB PB[9],0x01\nPRIM 3,2\nINCN SB[0],2\nPRIM 3,1\nEXITLA 1025\n")
A = (READS.format(8) + "PRIM 3,2\nINCN SB[0],2\nPUSHW 0x1234\nCMPB PB[9],0x00\nSETSW 0x6111\nPUSHW 2\nPRIM 7\nPRIM 2\nSTORE PB[0],1\nSTORE PB[1],2\nLOAD PT[-2],2\nSTORE PB[6],2\n"
     "CMPB PT[-12],0x02\nJUMP EQ,commit\nPRIM 3,0\nEXITLA 9\ncommit: PRIM 3,1\nEXITLA 9\n")


def after_delegation() -> str:
    """What a delegator has after its delegate exited: flags, stack, status, protection and the budget."""
    ask = "apdu 800{}00000A" + "00" * 10 + "09"
    return ("# After a delegate: its delegator has its own flags, stack, status and protection, and both have one budget.\nformat\npower\n"
            f"app b A000000E02\n{B}end\napp a A000000E01\nDATA 000005A000000E02\n{A}end\nload b 2 0\nload a 8 0\nselect A000000E01\n"
            f"{ask.format(1)}\n{ask.format(2)}\nbudget 20\n{ask.format(2)}\nbudget 10000\n{ask.format(1)}\n"
            "power\nselect A000000E02\napdu 8000000002\nselect A000000E01\napdu 8000000008\n")


def stops() -> str:
    """Stops that hit nothing, a piece of a load, and the writes of a recovery."""
    zeros, opening = "00" * 8, b"OPEN-2--".hex().upper()
    count = "CMPB PT[-12],0x00\nJUMP EQ,read\nINCN SB[0],2\nread: LOAD SB[0],2\nSTORE PB[0],2\nEXITLA 2\n"
    lines = ["# Stops that hit nothing, a piece of a load, and each write of a recovery.", "format", "power", f"app c A000000F01\n{count}end", f"app d A000000F02\n{count}end",
             "load c 2 0", "select A000000F01", "# the stop is for this command, which has fewer writes", f"cut 7 {zeros}", "apdu 8001000002", "load d 2 0",
             "select A000000F02", "apdu 8000000002", "power", "apdu BE18000005A000000F02", "# in a piece of the code", f"cut 2 {zeros}", "load d 2 0", "power",
             "select A000000F02"]
    for last, fill in ((zeros, zeros), (opening, opening)):
        lines += ["# whole, so that the next power-up makes two writes, of which the last is stopped", "select A000000F01", f"cut 5 {fill}", "apdu 8001000002", f"cut 2 {last}", "power",
                  f"cut 1 {zeros}", "power", "power", f"cut 1 {zeros}", "power", "select A000000F01", "apdu 8000000002"]
    return "\n".join([*lines, "power", "select A000000F01", "apdu 8000000002", "select A000000F02"]) + "\n"


def decks() -> Iterator[Tuple[str, str, str, bool]]:
    """The decks: topic, name, text, and whether commands that read are to be put in."""
    yield "machine", "registers_and_bounds", text_of("LB after a return, conditions, flags that stay, and bounds on both sides.", 0x0900, MACHINE), False
    yield "primitives", "there_and_back", text_of("Ciphers undone, chains with a start, comparisons, flags, copies and cases.", 0x0A00, PRIMITIVES), False
    yield "sessions", "header", text_of("What an application finds in its header, and a selection that a refused command leaves.", 0x0B00, SESSIONS), False
    yield "transactions", "twice_in_one", text_of("A byte that is written twice, more than 64 bytes, and what is dropped at an exit.", 0x0C00, TRANSACTIONS), True
    yield "commands", "limits", refusals(), False
    yield "delegation", "after_a_delegate", after_delegation(), False
    yield "cuts", "stops_of_recoveries", stops(), False
