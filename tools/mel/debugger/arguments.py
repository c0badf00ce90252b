"""What each request must have, so that a wrong one is refused by a sentence."""

from __future__ import annotations

import re
from typing import Any, Dict, Optional, Tuple

MOST = 1 << 31  # of a number that a client may send
KINDS: Dict[str, Tuple[type, str]] = {
    "text": (str, "a text"), "number": (int, "a whole number"), "truth": (bool, "true or false"), "list": (list, "a list"), "object": (dict, "an object")}
# The requests whose play must have begun.
OF_A_PLAY = ("continue", "next", "stepIn", "stepOut", "stepBack", "reverseContinue", "pause", "restart", "configurationDone", "stackTrace", "scopes",
             "variables", "evaluate", "readMemory", "disassemble", "exceptionInfo", "cut", "whole", "dataBreakpointInfo")
HIT = re.compile(r"\s*(?:>=)?\s*([0-9]{1,9})\s*")


class Wrong(Exception):
    """What is wrong with the arguments of a request."""


# The arguments of each request: a `!` says that it must be there.
BREAKPOINT = {"line": "number!", "condition": "text", "hitCondition": "text", "logMessage": "text"}
ARGUMENTS: Dict[str, Dict[str, str]] = {
    "initialize": {"linesStartAt1": "truth", "columnsStartAt1": "truth", "pathFormat": "text"},
    "launch": {"program": "text!", "line": "number", "stopOnEntry": "truth", "noDebug": "truth", "meldesk": "text"},
    "setBreakpoints": {"source": "object!", "breakpoints": "list", "lines": "list"},
    "breakpointLocations": {"line": "number!", "endLine": "number"},
    "setFunctionBreakpoints": {"breakpoints": "list!"},
    "setInstructionBreakpoints": {"breakpoints": "list!"},
    "setDataBreakpoints": {"breakpoints": "list!"},
    "setExceptionBreakpoints": {"filters": "list"},
    "dataBreakpointInfo": {"name": "text!", "variablesReference": "number", "frameId": "number"},
    "stackTrace": {"startFrame": "number", "levels": "number"},
    "scopes": {"frameId": "number!"},
    "variables": {"variablesReference": "number!", "start": "number", "count": "number"},
    "evaluate": {"expression": "text!", "frameId": "number", "context": "text"},
    "readMemory": {"memoryReference": "text!", "offset": "number", "count": "number!"},
    "disassemble": {"memoryReference": "text!", "offset": "number", "instructionOffset": "number", "instructionCount": "number!"},
    "cut": {"write": "number", "fill": "text"}}
# What each item of a list has.
ITEMS: Dict[Tuple[str, str], Dict[str, str]] = {
    ("setBreakpoints", "breakpoints"): BREAKPOINT,
    ("setFunctionBreakpoints", "breakpoints"): {"name": "text!", "condition": "text", "hitCondition": "text"},
    ("setInstructionBreakpoints", "breakpoints"): {"instructionReference": "text!", "offset": "number", "condition": "text", "hitCondition": "text"},
    ("setDataBreakpoints", "breakpoints"): {"dataId": "text!", "condition": "text", "hitCondition": "text"},
    ("setBreakpoints", "source"): {"path": "text"}}


def check_one(name: str, given: Dict[str, Any], wanted: Dict[str, str]) -> None:
    """Refuses arguments that are not what is wanted; a null is an argument that is left out."""
    for argument, kind in wanted.items():
        value = given.get(argument)
        if value is None:
            if kind.endswith("!"):
                raise Wrong(f"{name} has no {argument}")
            continue
        of, text = KINDS[kind.rstrip("!")]
        if not isinstance(value, of) or of is int and isinstance(value, bool):
            raise Wrong(f"{argument} of {name} is not {text}")
        if of is int and not -MOST <= value <= MOST:
            raise Wrong(f"{argument} of {name} is out of range")


def check(name: str, given: Dict[str, Any]) -> None:
    """Refuses a request whose arguments are not what it needs.

    # Errors

    Wrong, with a sentence.
    """
    check_one(name, given, ARGUMENTS.get(name, {}))
    for (request, argument), wanted in ITEMS.items():
        if request != name or given.get(argument) is None:
            continue
        for it in given[argument] if isinstance(given[argument], list) else [given[argument]]:
            if not isinstance(it, dict):
                raise Wrong(f"an item of {argument} of {name} is no object")
            check_one(argument, it, wanted)
    for argument, kind in (("lines", int), ("filters", str)):
        if any(not isinstance(it, kind) or isinstance(it, bool) for it in given.get(argument) or [] if name.startswith("set")):
            raise Wrong(f"an item of {argument} of {name} is not {'a whole number' if kind is int else 'a text'}")


def address_of(name: str, given: Dict[str, Any], argument: str) -> int:
    """Returns the address that an argument has, with its offset.

    # Errors

    Wrong, if it is no address.
    """
    text = given[argument]
    if not re.fullmatch(r"0[xX][0-9A-Fa-f]{1,12}|[0-9]{1,12}", text):
        raise Wrong(f"{argument} of {name} is no address")
    return int(text, 0 if text[:2] in ("0x", "0X") else 10) + (given.get("offset") or 0)


def hits_of(text: Optional[str]) -> Optional[int]:
    """Returns from which hit on a breakpoint stops, 0 without a condition, None if the condition is none."""
    if not (text or "").strip():
        return 0
    found = HIT.fullmatch(text or "")
    return int(found.group(1)) if found else None
