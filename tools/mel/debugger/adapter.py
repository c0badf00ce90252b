"""What a client of the Debug Adapter Protocol asks of a play, and what it is answered."""

from __future__ import annotations

import base64
import os
import re
from dataclasses import dataclass, replace
from typing import Callable, Dict, List, Optional, Tuple

from desktexts import Play, Refused, Section, desk, sections_of
from labtexts import lines_of
from sources import NotRead
from units import statements

from . import cuts, origins, stops, views
from .arguments import OF_A_PLAY, Wrong, address_of, check, hits_of
from .expressions import BadExpression, Bytes, value_of
from .forms import Form
from .origins import Origin, Place
from .stack import CODE, Spot, instructions, memory, reference, spots
from .stops import Breakpoint, Stop, Stops, Watch
from .walk import Position, Walk, expectations_of
from .wire import Wire

CAPABILITIES = {
    "supportsConfigurationDoneRequest": True, "supportsFunctionBreakpoints": True, "supportsConditionalBreakpoints": True,
    "supportsHitConditionalBreakpoints": True, "supportsLogPoints": True, "supportsDataBreakpoints": True, "supportsStepBack": True,
    "supportsEvaluateForHovers": True, "supportsReadMemoryRequest": True, "supportsDisassembleRequest": True,
    "supportsInstructionBreakpoints": True, "supportsExceptionInfoRequest": True, "supportsRestartRequest": True,
    "supportsTerminateRequest": True, "supportsBreakpointLocationsRequest": True,
    "exceptionBreakpointFilters": [{"filter": it, "label": text, "default": True} for it, text in stops.FILTERS.items()]}
EXPLAINED = re.compile(r"(.*):(\d+):(\d+): (\w+): (.*)$")
REFUSED = re.compile(r"line (\d+) \w+$")
NUMBER, FILL = re.compile("[1-9][0-9]{0,8}"), re.compile("[0-9A-Fa-f]{16}")
MOST_BYTES, MOST_INSTRUCTIONS = 1 << 16, 4096  # that one request reads
LONGEST_DRAFT = (1 << 20) + 1  # bytes; a longer one is refused by meldesk, so the rest need not be read
MOVES = ("continue", "next", "stepIn", "stepOut", "stepBack", "reverseContinue")
# What is asked only of a play that stands still, besides moves.
STANDING = ("evaluate", "cut", "whole", "restart", "launch", "configurationDone")
HELP = """cut [K [FILL]]   cut power in the next device write, or in write K of this line, and play on
whole            go back to the play without the cut
watch NAME       stop when these bytes change; unwatch [NAME] takes it back
goto LINE        go to the statement of a line
back             undo one instruction
All else is an expression: tries, amount+1, balance.size, PB[0],2, tries == 0 and not shown
"""


class Failed(Exception):
    """Why a request fails."""


class NotPlayed(Failed):
    """A play that has not begun."""

    def __init__(self) -> None:
        super().__init__("nothing was launched")


@dataclass
class Read:
    """A draft that is played: its path and text, where its lines come from, its sections, the lines of its statements, and what is expected of
    their results."""

    path: str
    draft: bytes
    origin: Origin
    sections: List[Section]
    lines: List[int]
    expected: Dict[int, List[str]]


class Adapter:
    """A session with one client."""

    def __init__(self, wire: Wire) -> None:
        self.wire = wire
        self.path, self.line = "", None
        self.draft = b""
        self.origin = Origin()
        # A step of an application in C is a line, unless the client asks for an instruction.
        self.is_by_line = False
        self.sections: List[Section] = []
        self.statement_lines: List[int] = []
        self.expected: Dict[int, List[str]] = {}
        self.form = Form()
        self.is_stopping = True
        self.walk: Optional[Walk] = None
        self.play: Optional[Play] = None
        self.whole: Optional[Position] = None
        self.position = Position(0, 0)
        self.stops = Stops(self.console)
        self.cut: Optional[cuts.Cut] = None
        # Why the play stands still, and why it went somewhere while a request was answered that is no move.
        self.stopped: Optional[Stop] = None
        self.jumped: Optional[Stop] = None
        self.stop_on_entry = False
        self.is_over = self.is_done = self.has_left = False
        self.told = 0
        self.numbers = 0
        self.refs: List[Callable[[], List[dict]]] = []
        self.shown: List[List[views.Shown]] = []

    # ---- the loop

    def serve(self) -> None:
        """Answers requests until the client leaves."""
        while not self.is_done and (request := self.wire.next()) is not None:
            self.handle(request)
        self.close()

    def close(self) -> None:
        """Ends the play."""
        if self.play is not None:
            self.play.close()
            self.play = None

    def handle(self, request: dict) -> None:
        """Answers one request."""
        name, given = request["command"], request.get("arguments") or {}
        self.jumped = None
        method = getattr(self, "on_" + name, None)
        if method is None:
            self.wire.refuse(request, f"there is no request {name[:100]}")
            return
        try:
            if name in OF_A_PLAY and self.walk is None:
                raise NotPlayed
            check(name, given)
            body = method(given)
        except (Failed, Refused, BadExpression, cuts.NoCut, Wrong) as why:
            self.wire.refuse(request, str(why))
            return
        except BrokenPipeError:
            raise
        except Exception as why:  # a fault of the debugger ends no session
            self.wire.refuse(request, f"{name} failed in the debugger: {type(why).__name__}: {why}")
            return
        self.wire.answer(request, body)
        if name in MOVES or name in ("configurationDone", "restart"):
            self.move("entry" if name in ("configurationDone", "restart") else name)
        elif self.jumped is not None:
            self.stop(self.jumped)
        elif name == "launch":
            self.wire.event("initialized")

    def console(self, text: str, category: str = "console", **more: object) -> None:
        """Writes to the client's console."""
        self.wire.event("output", category=category, output=text, **more)

    # ---- the beginning and the end

    def on_initialize(self, given: dict) -> dict:
        form = given.get("pathFormat") or "path"
        if form not in ("path", "uri"):
            raise Failed(f"pathFormat is path or uri, not {form[:100]}")
        self.form = Form(0 if given.get("linesStartAt1") is False else 1, 0 if given.get("columnsStartAt1") is False else 1, form == "uri")
        self.wire.form = self.form.shown
        return CAPABILITIES

    def on_launch(self, given: dict) -> None:
        named = os.environ.get("MELDESK")
        if given.get("meldesk"):
            try:
                os.environ["MELDESK"] = given["meldesk"]
            except ValueError:
                raise Failed("meldesk is no path of a program") from None
        try:
            self.load(os.path.abspath(self.form.path(given["program"])), given.get("line"))
        except (Failed, Refused):
            if named is not None:
                os.environ["MELDESK"] = named
            else:
                os.environ.pop("MELDESK", None)
            raise
        self.line, self.stop_on_entry = given.get("line"), bool(given.get("stopOnEntry"))
        self.is_stopping = not given.get("noDebug")

    def on_restart(self, given: dict) -> None:
        self.load(self.path)

    def load(self, path: str, line: Optional[int] = None) -> None:
        """Reads a draft and begins to play it. One that is refused leaves the play that there is as it was."""
        found = self.read(path)
        if line is not None and found.origin.statement(line) not in found.lines:
            raise Failed(f"{os.path.basename(path)}: line {line} is no statement")
        play = self.played(found.draft)
        self.origin = found.origin
        self.path, self.draft, self.sections, self.statement_lines, self.expected = found.path, found.draft, found.sections, found.lines, found.expected
        self.whole, self.told, self.is_over = None, 0, False
        self.use(play, lambda it: it, found.expected)

    def read(self, path: str) -> Read:
        """Reads a draft.

        # Errors

        Failed, if it cannot be read or is refused.
        """
        name = os.path.basename(path)
        try:
            if os.path.exists(path) and not os.path.isfile(path):
                raise Failed(f"{name} is no file")
            draft, origin = self.content(path)
            is_told = self.explain(path, draft, origin)
            sections, deck = sections_of(draft), lines_of(desk(["deck"], draft))
        except OSError as error:
            raise Failed(f"{error.filename or name}: {error.strerror or error}") from None
        except ValueError:
            raise Failed("program is no path of a file") from None
        except Refused as why:
            refused = REFUSED.match(why.text)
            if refused and not is_told:
                self.console(f"{why}\n", "stderr", source=source_of(path), line=int(refused.group(1)))
            raise Failed(f"{name}: {why}") from None
        lines = [number for number, _ in statements(deck)]
        return Read(path, draft, origin, sections, lines, expectations_of(deck, lines))

    def content(self, path: str) -> Tuple[bytes, Origin]:
        """Returns the text of a draft, or what an application in C is compiled to, and where its lines come from.

        # Errors

        Failed, if the compiler refuses it.
        """
        if not path.endswith(".c"):
            with open(path, "rb") as file:
                return file.read(LONGEST_DRAFT), Origin(path)
        try:
            with open(path, "rb"):
                pass
            draft, origin, said = origins.read(path)
        except NotRead as why:
            if len(why.args) > 1 and why.args[1]:
                self.console(why.args[1], "stderr")
            raise Failed(why.args[0]) from None
        if said:
            self.console(said)
        return draft, origin

    def played(self, draft: bytes) -> Play:
        """Begins to play a draft.

        # Errors

        Failed, if there is no such program.
        """
        try:
            return Play(draft)
        except OSError as error:
            raise Failed(str(error)) from None

    def use(self, play: Play, line_of: Callable[[int], int], expected: Dict[int, List[str]]) -> None:
        """Goes to the beginning of a play, in place of the one that there is."""
        self.close()
        self.play = play
        self.walk = Walk(play, self.sections, line_of, expected)
        self.position, self.stopped = Position(0, 0), None
        self.refs, self.shown = [], []

    def explain(self, path: str, draft: bytes, origin: Origin) -> bool:
        """Writes all that is wrong with a draft, each with its line, and returns whether anything but warnings is."""
        is_told, name = False, os.path.basename(path)
        try:
            text = desk(["explain", name], draft)
        except Refused as why:
            text = why.text
        for line in text.splitlines():
            found = EXPLAINED.match(line)
            if found:
                is_told = is_told or found.group(4) != "warning"
                place = origin.place(int(found.group(2))) or (path, int(found.group(2)))
                column = 1 if origin.is_c else int(found.group(3))
                text = f"{os.path.basename(place[0])}:{place[1]}:{column}: {found.group(4)}: {found.group(5)}"
                self.console(text + "\n", "console" if found.group(4) == "warning" else "stderr", source=source_of(place[0]), line=place[1],
                             column=column)
        return is_told

    def on_configurationDone(self, given: dict) -> None:
        """Lets the play begin, which `handle` does after its answer."""

    def on_disconnect(self, given: dict) -> None:
        self.is_done = self.has_left = True

    def on_terminate(self, given: dict) -> None:
        self.wire.event("terminated")

    def source(self) -> dict:
        """Returns the draft, as the protocol names it."""
        return source_of(self.path)

    # ---- breakpoints

    def number(self) -> int:
        """Returns a number for a breakpoint."""
        self.numbers += 1
        return self.numbers

    def made(self, given: dict, **where: object) -> Breakpoint:
        """Returns the breakpoint that was asked for."""
        return Breakpoint(self.number(), condition=given.get("condition") or "", message=given.get("logMessage") or "",
                          count=hits_of(given.get("hitCondition")) or 0, **where)  # type: ignore[arg-type]

    def wrong_hits(self, given: dict) -> Optional[dict]:
        """Returns what is answered of a breakpoint whose hit condition is none, or None."""
        text = given.get("hitCondition")
        if hits_of(text) is not None:
            return None
        return {"verified": False, "message": f"the hit condition {text[:100]} is no number"}

    def lines_with_code(self) -> List[int]:
        """Returns the lines on which a run may stop."""
        return sorted({code.line for it in self.sections for code in it.code} | set(self.statement_lines))

    def on_setBreakpoints(self, given: dict) -> dict:
        asked = given.get("breakpoints")
        asked = [{"line": it} for it in given.get("lines", [])] if asked is None else asked
        path = real_path(self.form.path(given["source"].get("path") or ""))
        files = self.files()
        if self.path == "" or path not in files:
            played = f"{os.path.basename(self.path)} is what is played" if self.path else "nothing was launched"
            return {"breakpoints": [{"verified": False, "message": played} for _ in asked]}
        lines, told = files[path], []
        self.stops.lines = [it for it in self.stops.lines if it.path != path]
        for it in asked:
            asked_line = self.form.line(it["line"])
            line = min((at for at in lines if at >= asked_line), default=None)
            if line is None or asked_line < 1 or self.wrong_hits(it):
                told.append(self.wrong_hits(it) or {"verified": False, "message": "there is no code from this line on" if asked_line > 0
                                                    else "there is no such line"})
                continue
            made = self.made(it, line=lines[line][0], path=path)
            # A line of C may have code in several places.
            self.stops.lines += [made, *(replace(made, line=at) for at in lines[line][1:])]
            told.append({"id": self.numbers, "verified": True, "line": line, "source": source_of(path) if self.origin.is_c else self.source()})
        return {"breakpoints": told}

    def files(self) -> Dict[str, Dict[int, List[int]]]:
        """Returns the files that have lines on which a run may stop, and for each of these lines those of the draft."""
        if not self.origin.is_c:
            return {os.path.realpath(self.path): {it: [it] for it in self.lines_with_code()}}
        return self.origin.files(self.lines_with_code())

    def on_breakpointLocations(self, given: dict) -> dict:
        first = self.form.line(given["line"])
        last = first if given.get("endLine") is None else self.form.line(given["endLine"])
        path = os.path.realpath(self.form.path((given.get("source") or {}).get("path") or "").replace("\0", ""))
        lines = self.files().get(path if self.origin.is_c else os.path.realpath(self.path), {})
        return {"breakpoints": [{"line": it} for it in sorted(lines) if first <= it <= last]}

    def on_setFunctionBreakpoints(self, given: dict) -> dict:
        self.stops.functions, told = [], []
        for it in given["breakpoints"]:
            front, _, label = it["name"].rpartition(".")
            found = [(section, section.labels[label]) for section in self.sections if label in section.labels and front in ("", section.name)]
            found = found or self.of_function(it["name"]) or [(section, 0) for section in self.sections if section.name == it["name"]]
            if not found or self.wrong_hits(it):
                told.append(self.wrong_hits(it) or {"verified": False, "message": f"there is no label {it['name'][:100]}"})
                continue
            section, place = found[0]
            self.stops.functions.append(self.made(it, section=section, place=place))
            code = section.at(place)
            at = self.origin.place(code.line) if code else None
            told.append({"id": self.numbers, "verified": True, "source": source_of(at[0] if at else self.path), **({"line": at[1]} if at else {})})
        return {"breakpoints": told}

    def of_function(self, name: str) -> List[Tuple[Section, int]]:
        """Returns where the code of a function of C begins, also of one that is inlined."""
        if not self.origin.is_c:
            return []
        places = self.origin.lines.places
        return [(section, it.place) for section in self.sections for it in section.code
                if it.line in places and self.origin.lines.function(places[it.line]) == name][:1]

    def on_setInstructionBreakpoints(self, given: dict) -> dict:
        self.stops.places, told = [], []
        for it in given["breakpoints"]:
            index, place = divmod(address_of("setInstructionBreakpoints", it, "instructionReference") - CODE, 0x10000)
            section = self.sections[index] if 0 <= index < len(self.sections) else None
            code = section.at(place) if section else None
            if self.wrong_hits(it):
                told.append(self.wrong_hits(it))
            elif section and code and code.place == place:
                self.stops.places.append(self.made(it, section=section, place=place))
                at = self.origin.place(code.line) or (self.path, code.line)
                told.append({"id": self.numbers, "verified": True, "line": at[1], "source": source_of(at[0])})
            else:
                told.append({"verified": False, "message": "no instruction begins there"})
        return {"breakpoints": told}

    def on_setExceptionBreakpoints(self, given: dict) -> None:
        self.stops.filters = set(given.get("filters") or []) & set(stops.FILTERS)

    def on_dataBreakpointInfo(self, given: dict) -> dict:
        name, ref = given["name"], given.get("variablesReference") or 0
        lines = self.shown[ref - 1] if 1 <= ref <= len(self.shown) else []
        shown = next((it for it in lines if it.name == name), None)
        try:
            spot = self.spot(given.get("frameId"))
            found = self.watchable(shown.expression if shown is not None else name, spot)
        except (Failed, BadExpression) as why:
            return {"dataId": None, "description": str(why)}
        aid = spot.frame.aid if spot.frame is not None else ""
        return {"dataId": stops.watch_id(aid, found.address, len(found.content), name), "accessTypes": ["write"],
                "description": f"{name}, {views.bytes_of(len(found.content))} at {found.address:04X}", "canPersist": stops.is_kept(found.address)}

    def watchable(self, expression: str, spot: Spot) -> Bytes:
        """Returns the bytes that an expression names."""
        value = value_of(expression, spot.names())
        if not isinstance(value, Bytes):
            raise Failed(f"{expression} names no bytes")
        return value

    def on_setDataBreakpoints(self, given: dict) -> dict:
        self.stops.watches, told = [], []
        for it in given["breakpoints"]:
            watch = stops.watch_of(it["dataId"], self.number(), it.get("condition") or "", hits_of(it.get("hitCondition")) or 0)
            if watch is None or self.wrong_hits(it):
                told.append(self.wrong_hits(it) or {"verified": False, "message": "this is no dataId of dataBreakpointInfo"})
                continue
            self.stops.watches.append(watch)
            told.append({"id": self.numbers, "verified": True})
        return {"breakpoints": told}

    # ---- moves

    def on_continue(self, given: dict) -> dict:
        return {"allThreadsContinued": True}

    def _move(self, given: dict) -> None:
        """Moves, which `handle` does after the answer."""
        self.is_by_line = self.origin.is_c and given.get("granularity") != "instruction"

    on_next = on_stepIn = on_stepOut = on_stepBack = on_reverseContinue = _move

    def on_pause(self, given: dict) -> None:
        self.jumped = Stop("pause", "")

    def move(self, name: str) -> None:
        """Goes to where a request leads, and says where that is."""
        if name == "continue" and self.is_over:
            self.leave()
            return
        try:
            found = self.enter() if name == "entry" else self.run(name)
        except (Refused, ValueError) as why:
            self.console(f"{why}\n" if isinstance(why, Refused) else "meldesk ended while it wrote\n", "stderr")
            self.wire.event("terminated")
            return
        if self.is_over and not self.is_stopping:
            self.leave()
        else:
            self.stop(found)

    def leave(self) -> None:
        """Says that the play is over."""
        self.wire.event("terminated")
        self.wire.event("exited", exitCode=0)

    def enter(self) -> Optional[Stop]:
        """Goes to where the launch asked for: a line's first turn, the first statement, or the first breakpoint."""
        assert self.walk is not None and self.play is not None
        if self.play.statement(0) is None:
            raise Refused("the draft has no statement", 1)
        if not self.is_stopping:
            return self.run("continue")
        if self.line is not None:
            self.go_to(self.line)
            return Stop("entry", f"line {self.line}")
        if self.stop_on_entry:
            return Stop("entry", "")
        found = self.stops.at(self.walk, self.position, False)
        return found or self.run("continue")

    def go_to(self, line: int) -> None:
        """Goes to the first turn of the statement of a line."""
        assert self.walk is not None and self.play is not None
        for number, it in enumerate(self.play.statements()):
            if self.walk.line(Position(number, 0)) == self.origin.statement(line):
                self.position = Position(number, 1 if it.turns else 0)
                self.tell()
                return
        raise Refused(f"line {line} is no statement that is played", 1)

    def run(self, name: str) -> Optional[Stop]:
        """Goes on, or back, until there is a reason to stop; None if the client left."""
        assert self.walk is not None
        is_back = name in ("stepBack", "reverseContinue")
        start, steps = self.walk.level(self.position), 0
        begin = self.origin.place(self.walk.line(self.position)) if self.is_by_line else None
        while True:
            if name in ("continue", "reverseContinue"):
                self.skip(is_back)
            found = self.walk.step(self.position, is_back)
            if found is None:
                self.tell(is_end=not is_back)
                self.is_over = not is_back
                return Stop("pause" if name in ("continue", "reverseContinue") else "step",
                            "the beginning of the play" if is_back else "the end of the play")
            self.position, self.is_over = found, False
            self.tell()
            stop = (self.stops.at(self.walk, found, is_back) if self.is_stopping else None) or self.stepped(name, start, begin)
            if stop is not None:
                if is_back and begin is not None and stop.reason == "step":
                    self.go_to_front()
                return stop
            steps += 1
            if (steps % 1024 == 0 or found.at == 0) and self.is_interrupted():
                return None if self.is_done else Stop("pause", "")

    def skip(self, is_back: bool) -> None:
        """Goes over the turns at which a run does not stop, up to the one right before the next at which it may."""
        assert self.walk is not None
        number, end = self.position.statement, len(self.walk.statement(self.position).turns)
        if not (1 <= self.position.at <= end):
            return
        found = self.stops.next(self.walk, self.position, is_back)
        at = (found or 0) + 1 if is_back else (found or end + 1) - 1
        self.position = Position(number, at)

    def go_to_front(self) -> None:
        """Goes back to the first instruction of the line of C."""
        assert self.walk is not None
        level, place = self.walk.level(self.position), self.origin.place(self.walk.line(self.position))
        while (found := self.walk.step(self.position, True)) is not None:
            if self.walk.turn(found) is None or self.walk.level(found) != level or self.origin.place(self.walk.line(found)) != place:
                break
            self.position = found

    def stepped(self, name: str, start: tuple, begin: Optional[Place] = None) -> Optional[Stop]:
        """Whether a step of some kind, which began at a depth, is done; one by lines began at a place."""
        assert self.walk is not None
        if begin is not None and name in ("stepIn", "stepBack", "next") and self.walk.level(self.position) == start \
                and self.origin.place(self.walk.line(self.position)) == begin:
            return None
        if name in ("stepIn", "stepBack"):
            return Stop("step", "")
        if name not in ("next", "stepOut"):
            return None
        level = self.walk.level(self.position)
        return Stop("step", "") if (level <= start if name == "next" else level < start or start == (0, 0)) else None

    def is_interrupted(self) -> bool:
        """Whether the client asked for a pause, or left; its other requests are answered."""
        while not self.is_done and (request := self.wire.waiting()) is not None:
            if request.get("command") == "pause":
                self.wire.answer(request)
                return True
            if request.get("command") in (*MOVES, *STANDING):
                self.wire.refuse(request, "the play runs")
            else:
                self.handle(request)
        self.is_done = self.is_done or self.wire.has_ended
        return self.is_done

    def tell(self, is_end: bool = False) -> None:
        """Writes the results of the statements that are done, each once."""
        assert self.walk is not None and self.play is not None
        end = self.position.statement + (1 if is_end or self.walk.is_after(self.position) else 0)
        while self.told < end:
            it = self.play.statement(self.told)
            assert it is not None
            if it.result is not None:
                line = self.walk.line(Position(self.told, 0))
                place = self.origin.place(line) or (self.path, line)
                self.console(f"{place[1]} {it.text}: {it.result}\n", "stdout", source=source_of(place[0]), line=place[1])
            self.told += 1

    def stop(self, why: Optional[Stop]) -> None:
        """Says that the play stands still."""
        if why is None:
            return
        self.stopped, self.refs, self.shown = why, [], []
        more = {"description": why.text, "text": why.text} if why.text else {}
        self.wire.event("stopped", reason=why.reason, threadId=1, allThreadsStopped=True, **more, **({"hitBreakpointIds": why.hit} if why.hit else {}))

    # ---- what is shown

    def on_threads(self, given: dict) -> dict:
        return {"threads": [{"id": 1, "name": "card"}]}

    def on_exceptionInfo(self, given: dict) -> dict:
        if self.stopped is None or self.stopped.reason != "exception":
            raise Failed("the play did not stop for an exception")
        return {"exceptionId": "abend" if self.stopped.text.startswith("abend") else "expectation", "description": self.stopped.text,
                "breakMode": "always"}

    def spots(self) -> List[Spot]:
        """Returns the frames of the stack trace, the running one first."""
        if self.walk is None:
            raise NotPlayed
        found = spots(self.walk, self.position)
        found[0].section = self.origin.with_locals(found[0].section, found[0].line, found[0].state, found[0].depth)
        return found

    def spot(self, number: Optional[int]) -> Spot:
        """Returns a frame by the number that the client has of it; the running one without."""
        found = self.spots()
        if not 1 <= (number or 1) <= len(found):
            raise Failed(f"there is no frame {number}")
        return found[(number or 1) - 1]

    def on_stackTrace(self, given: dict) -> dict:
        found = self.spots()
        first, count = max(given.get("startFrame") or 0, 0), max(given.get("levels") or 0, 0) or len(found)
        frames = []
        for number, it in enumerate(found[first:first + count], first + 1):
            place = self.origin.place(it.line)
            frame = {"id": number, "name": self.frame_name(it), "line": place[1] if place else 0, "column": 1 if place else 0}
            if place:
                frame["source"] = source_of(place[0])
            address = self.reference(it)
            if address is not None:
                frame["instructionPointerReference"] = address
            frames.append(frame)
        return {"stackFrames": frames, "totalFrames": len(found)}

    def frame_name(self, spot: Spot) -> str:
        """Returns what a frame is called: of C the function that its line is in."""
        noted = self.origin.lines.places.get(spot.line) if self.origin.is_c and spot.line is not None else None
        name = self.origin.lines.function(noted) if noted is not None else None
        return name if name is not None else spot.name

    def reference(self, spot: Spot) -> Optional[str]:
        """Returns the address of the code of a frame; the names of locals are no part of its section."""
        section = next((it for it in self.sections if spot.section is not None and (it.name, it.aid) == (spot.section.name, spot.section.aid)), None)
        return reference(self.sections, replace(spot, section=section))

    def keep(self, shown: List[views.Shown], depth: int, spot: Spot) -> int:
        """Keeps the lines of a scope, and returns the reference by which the client asks for them."""
        self.refs.append(lambda: [self.variable(it, depth, spot) for it in shown])
        self.shown.append(shown)
        return len(self.refs)

    def variable(self, it: views.Shown, depth: int, spot: Spot) -> dict:
        """Returns a line of a scope, as the protocol has it."""
        made = {"name": it.name, "value": it.value, "variablesReference": 0, **({"type": it.type} if it.type else {}),
                **({"evaluateName": it.expression} if it.expression else {})}
        if it.address is not None:
            made["memoryReference"] = hex(depth * 0x10000 + it.address)
            if it.size > views.LONG and spot.state is not None:
                below = list(views.rows(spot.state, depth, it.address, it.size, it.name, it.address))
                for row in below:
                    row.expression = ""
                made["variablesReference"] = self.keep(below, depth, spot)
        return made

    def on_scopes(self, given: dict) -> dict:
        spot, scopes = self.spot(given["frameId"]), []
        for name, shown in spot.scopes(self.stopped):
            scopes.append({"name": name, "variablesReference": self.keep(shown, spot.depth, spot), "expensive": False,
                           "namedVariables": len(shown)})
        return {"scopes": scopes}

    def on_variables(self, given: dict) -> dict:
        number = given["variablesReference"]
        if not 1 <= number <= len(self.refs):
            raise Failed(f"there are no variables {number}")
        found, start = self.refs[number - 1](), max(given.get("start") or 0, 0)
        return {"variables": found[start:start + (max(given.get("count") or 0, 0) or len(found))]}

    def on_evaluate(self, given: dict) -> dict:
        text, spot = given["expression"].strip(), self.spot(given.get("frameId"))
        if given.get("context") == "repl":
            said = self.order(text.split(), spot)
            if said is not None:
                return {"result": said.rstrip("\n"), "variablesReference": 0}
        value = value_of(text, spot.names())
        more = {"memoryReference": hex(spot.depth * 0x10000 + value.address), "type": views.bytes_of(len(value.content))} \
            if isinstance(value, Bytes) else {"type": "number"}
        return {"result": views.value_text(value), "variablesReference": 0, **more}

    def on_readMemory(self, given: dict) -> dict:
        address, count = address_of("readMemory", given, "memoryReference"), given["count"]
        if count < 0:
            raise Failed("count of readMemory is negative")
        start, content = memory(self.walk, self.position, address, min(count, MOST_BYTES))
        return {"address": hex(start), "data": base64.b64encode(content).decode(), "unreadableBytes": count - len(content)}

    def on_disassemble(self, given: dict) -> dict:
        address, count = address_of("disassemble", given, "memoryReference"), given["instructionCount"]
        if not 0 <= count <= MOST_INSTRUCTIONS:
            raise Failed(f"disassemble writes at most {MOST_INSTRUCTIONS} instructions")
        return {"instructions": instructions(self.sections, address, given.get("instructionOffset") or 0, count, self.located)}

    def located(self, line: int) -> dict:
        """Returns the line and the file of a line of the draft, as the protocol has them."""
        place = self.origin.place(line)
        return {"line": place[1], "location": source_of(place[0])} if place is not None else {}

    # ---- cuts and the words of the console

    def order(self, fields: List[str], spot: Spot) -> Optional[str]:
        """Does what a word of the console says, and returns what is answered; None if it is no such word."""
        word, rest = (fields or [""])[0], fields[1:]
        orders: Dict[str, Callable[[], str]] = {
            "help": lambda: HELP, "cut": lambda: self.console_cut(rest), "whole": self.play_whole, "goto": lambda: self.console_goto(rest),
            "watch": lambda: self.console_watch(rest, spot), "unwatch": lambda: self.console_unwatch(rest), "back": self.console_back}
        return orders[word]() if word in orders and not (self.is_name(word, spot) and not rest) else None

    def is_name(self, word: str, spot: Spot) -> bool:
        """Whether a draft has a name that is a word of the console."""
        return spot.section is not None and word in spot.section.names

    def on_cut(self, given: dict) -> dict:
        fill = given.get("fill") or cuts.FILL
        if given.get("write") is not None and given["write"] < 1 or not FILL.fullmatch(fill):
            raise Failed("cut has in write the number of a device write, and in fill 8 bytes")
        text = self.play_cut(given.get("write"), fill)
        assert self.cut is not None
        return {"text": text, "line": self.cut.line, "write": self.cut.write, "before": self.cut.before, "after": self.cut.after,
                "cut": self.cut.cut}

    def on_whole(self, given: dict) -> dict:
        return {"text": self.play_whole()}

    def console_cut(self, rest: List[str]) -> str:
        """Does the word `cut`."""
        if len(rest) > 2 or rest and not NUMBER.fullmatch(rest[0]) or rest[1:] and not FILL.fullmatch(rest[1]):
            raise Failed("cut [K [FILL]]: K is a device write, FILL 8 bytes")
        return self.play_cut(int(rest[0]) if rest else None, rest[1] if rest[1:] else cuts.FILL)

    def play_cut(self, write: Optional[int], fill: str) -> str:
        """Cuts power here, and goes to where the card is shown after power returned."""
        assert self.walk is not None
        if self.whole is not None:
            raise Failed("this play has a cut: `whole` goes back to the one without")
        statement = self.walk.statement(self.position)
        write = write or self.walk.next_write(self.position)
        if write is None:
            raise Failed("no device write is made from here on in this line")
        frames = self.walk.state(self.position).frames
        selected = frames[0].aid if frames and statement.turns else None
        made = cuts.cut_at(self.draft, statement.line, write, fill, selected)
        number, play = self.position.statement, self.played(made.draft)
        self.cut, self.whole = made, self.position
        self.use(play, made.line_of, {})
        self.go_after_cut(number, selected)
        self.jumped = Stop("goto", f"power was cut in write {made.write}")
        return cuts.report(made, self.sections)

    def go_after_cut(self, number: int, selected: Optional[str]) -> None:
        """Goes to the dump of the application that was selected, or to the line `power` after the cut."""
        assert self.play is not None
        at = after = None
        for place, it in enumerate(self.play.statements()):
            if it.text.split()[:1] == ["power"] and place > number and after is None:
                after = place
            if after is not None and it.text.split() == ["dump", selected]:
                at = place
                break
        self.position = Position(at or after or number, 0)
        self.told = self.position.statement

    def play_whole(self) -> str:
        """Goes back to the play without a cut, to where it was cut."""
        if self.whole is None:
            raise Failed("this play has no cut")
        play, position, self.whole = self.played(self.draft), self.whole, None
        self.use(play, lambda it: it, self.expected)
        self.position, self.told = position, position.statement
        self.jumped = Stop("goto", "the play without a cut")
        return "the play without a cut"

    def console_goto(self, rest: List[str]) -> str:
        """Does the word `goto`."""
        if len(rest) != 1 or not NUMBER.fullmatch(rest[0]):
            raise Failed("goto LINE: LINE is the number of a statement's line")
        self.go_to(int(rest[0]))
        self.jumped = Stop("goto", f"line {rest[0]}")
        return f"line {rest[0]}"

    def console_back(self) -> str:
        """Does the word `back`."""
        self.run("stepBack")
        self.jumped = Stop("goto", "one instruction back")
        return "one instruction back"

    def console_watch(self, rest: List[str], spot: Spot) -> str:
        """Does the word `watch`."""
        name = " ".join(rest)
        if not name:
            return "\n".join(f"{it.name}: {views.bytes_of(it.size)} at {it.address:04X}" for it in self.stops.watches) or "no bytes are watched"
        found = self.watchable(name, spot)
        data_id = stops.watch_id(spot.frame.aid if spot.frame else "", found.address, len(found.content), name)
        watch: Optional[Watch] = stops.watch_of(data_id, self.number(), "", 0)
        if watch is not None:
            self.stops.watches.append(watch)
        return f"{name}: {views.bytes_of(len(found.content))} at {found.address:04X} watched"

    def console_unwatch(self, rest: List[str]) -> str:
        """Does the word `unwatch`."""
        self.stops.watches = [it for it in self.stops.watches if rest and it.name != " ".join(rest)]
        return f"{len(self.stops.watches)} watched"


def real_path(path: str) -> str:
    """Returns where a path leads, or nothing for what is no path."""
    try:
        return os.path.realpath(path)
    except ValueError:
        return ""


def source_of(path: str) -> dict:
    """Returns a draft, as the protocol names it."""
    return {"name": os.path.basename(path), "path": path}
