"""A card in plain Python, after `docs/CARD.md` and `docs/MACHINE.md`: a second implementation for the trial of the conformance decks. With the
name of a fault it is wrong in one respect, so that a deck must find it. `faults.py` lists the faults; it shares no code with `melreader`.
"""
