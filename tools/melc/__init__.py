"""`melc`, a compiler of a subset of C to drafts. Its passes, in their order, are the modules

    source       preprocess and parse: `cpp`, and pycparser
    names        types and names of declarations
    expressions  types and ranges of expressions, with `library`, the calls of the card
    analysis     declarations and statements: the typed program of `tree`
    lowering     statements to blocks of instructions, with `selection`, which evaluates expressions
    layout       the order of blocks, jumps and shared exits
    text         the section and the draft

`lines` turns what other programs write of a draft into lines of C. It needs Python 3.9, pycparser and `cpp`.
"""

from .main import main

__all__ = ["main"]
