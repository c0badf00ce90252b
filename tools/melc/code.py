"""What code is made of: instructions, operands in memory, and blocks with their ends."""

from __future__ import annotations

from dataclasses import dataclass, field
from typing import List, Optional, Union

from .faults import At

# Words whose length a name of a draft brings with it, if it is their only operand.
SIZED = {"LOAD", "STORE", "CLEARN", "TESTN", "INCN", "DECN", "NOTN", "CMPN", "ADDN", "SUBN", "ANDN", "ORN", "XORN"}
# Words with an operand in memory: the bytes of what follows it.
IMMEDIATE = {"SETB": 1, "CMPB": 1, "ADDB": 1, "SUBB": 1, "SETW": 2, "CMPW": 2, "ADDW": 2, "SUBW": 2, "LOADA": 0, "INDEX": 1, "LOADI": 1, "STOREI": 1,
             **{it: 1 for it in SIZED}}
# Words without one: their bytes. The operands of PRIM count besides.
FIXED = {"PUSHZ": 2, "PUSHB": 2, "PUSHW": 3, "POPN": 2, "POPB": 1, "POPW": 1, "EXIT": 1, "EXITSW": 3, "EXITLA": 3, "EXITSWLA": 5, "SETSW": 3, "SETLA": 3,
         "SETSWLA": 5, "RET": 1, "RETI": 2, "RETO": 2, "RETIO": 3, "CALL": 3, "BRANCH": 2, "JUMP": 3}
OPPOSITE = {"EQ": "NE", "NE": "EQ", "LT": "GE", "GE": "LT", "LE": "GT", "GT": "LE"}


@dataclass(frozen=True)
class Spot:
    """A place in memory that an operand names: a register and an offset, and the name of the draft with the bytes from here to its end."""

    register: str
    offset: int
    name: str = ""
    at: int = 0
    room: int = 0

    def later(self, count: int) -> "Spot":
        """Returns the place some bytes further."""
        return Spot(self.register, self.offset + count, self.name, self.at + count, self.room - count)

    def operand(self, word: str, number: Optional[int]) -> str:
        """Returns the operands of a word here; `number` is its length or what follows it."""
        named = self.name + (f"+{self.at}" if self.at else "")
        is_raw = not self.name or self.room <= 0 or IMMEDIATE[word] == 2 and self.room != 2
        front = f"{self.register}[{self.offset}]" if is_raw else named
        if number is None or not is_raw and word in SIZED and number == self.room:
            return front
        return f"{front},{number}"


@dataclass
class Ins:
    """An instruction: its word and operands as they are written, its bytes, and the line of C that it is of."""

    word: str
    operands: str
    size: int
    at: At

    @property
    def text(self) -> str:
        """The instruction as it is written."""
        return f"{self.word} {self.operands}" if self.operands else self.word


@dataclass(eq=False)
class Block:
    """Instructions that run one after the other, and what comes then; `height` are the bytes of the stack at its beginning."""

    height: int
    routine: str
    code: List[Ins] = field(default_factory=list)
    end: Optional["End"] = None
    name: str = ""


@dataclass
class Goto:
    """The next block is this."""

    target: Block
    at: At


@dataclass
class Branch:
    """The next block is `yes` if the condition holds, else `no`."""

    condition: str
    yes: Block
    no: Block
    at: At


@dataclass
class Stop:
    """An exit or a return ends it. One that is implied stands at the end of `main`; one in place of a jump has the block that this went to."""

    code: Ins
    is_implied: bool = False
    target: Optional[Block] = None


End = Union[Goto, Branch, Stop]
