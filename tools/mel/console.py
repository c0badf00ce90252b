"""`mel debug DRAFT`: the debug adapter at a terminal. Without a draft it is the adapter itself, on standard input and output."""

from __future__ import annotations

import argparse
import json
import subprocess
import sys
import tempfile
from pathlib import Path
from typing import Any, Dict, List, Optional, Tuple

import debug
import labtexts
import sources
import terminal
from debugger import origins
from sources import HERE, Source

try:
    import readline  # noqa: F401  gives `input` its keys and its history
except ImportError:
    pass

HELP = """c, r         go on, and back, to the next reason to stop
s, n, o      one instruction, of C one line; one of this routine; out of this routine
p            undo one instruction, of C one line
b [PLACE]    set or delete a breakpoint at a line, a label or a function of C; without PLACE list them
w NAME       stop when these bytes change; `unwatch NAME` takes it back
k [K]        cut power in the next device write, or in write K of this line; u goes back to the play without the cut
g LINE       go to the statement of a line
l, t, v      the lines around; the stack of calls; all bytes
h, q         this help; end
All else is an expression: tries, amount+1, PB[0],2, tries == 0 and not shown"""
MOVES = {"c": "continue", "r": "reverseContinue", "s": "stepIn", "n": "next", "o": "stepOut", "p": "stepBack"}
AROUND = 4  # lines that `l` shows before and after the current one


class Ended(Exception):
    """The adapter has ended."""


class Client:
    """The adapter, which runs, and what it has sent."""

    def __init__(self) -> None:
        self.program = subprocess.Popen([sys.executable, str(HERE / "debug.py")], stdin=subprocess.PIPE, stdout=subprocess.PIPE)
        self.count, self.stops = 0, []  # type: int, List[Dict[str, Any]]
        self.is_over = False

    def read(self) -> Dict[str, Any]:
        """Returns the next message. Outputs are written, and stops are kept."""
        assert self.program.stdout is not None
        length: Optional[int] = None
        while (line := self.program.stdout.readline().strip()) or length is None:
            if not line:
                raise Ended
            key, _, value = line.partition(b":")
            length = int(value) if key.lower() == b"content-length" else length
        message: Dict[str, Any] = json.loads(self.program.stdout.read(length))
        if message.get("event") == "output":
            sys.stdout.write(message["body"]["output"])
        elif message.get("event") == "stopped":
            self.stops.append(message["body"])
        elif message.get("event") in ("terminated", "exited"):
            self.is_over = True
        return message

    def ask(self, command: str, **arguments: Any) -> Tuple[bool, Any]:
        """Sends a request; returns whether it succeeded, and its body or why not."""
        assert self.program.stdin is not None
        self.count += 1
        content = json.dumps({"seq": self.count, "type": "request", "command": command, "arguments": arguments}).encode()
        self.program.stdin.write(b"Content-Length: %d\r\n\r\n%s" % (len(content), content))
        self.program.stdin.flush()
        while True:
            message = self.read()
            if message["type"] == "response" and message["request_seq"] == self.count:
                return message["success"], message.get("body") if message["success"] else message.get("message", "it failed")

    def stop(self) -> Optional[Dict[str, Any]]:
        """Returns the stop that a move leads to, or None if the play is over."""
        while not self.stops and not self.is_over:
            self.read()
        return self.stops.pop(0) if self.stops else None

    def close(self) -> None:
        """Ends the adapter."""
        for stream in (self.program.stdin, self.program.stdout):
            assert stream is not None
            stream.close()
        self.program.wait()


class Console:
    """A session at the terminal."""

    def __init__(self, client: Client, source: Source, draft: Path) -> None:
        self.client, self.source, self.draft = client, source, draft
        self.texts: Dict[str, List[str]] = {}
        self.path = str(draft)
        self.line, self.frame = 0, 0
        self.places: List[str] = []

    @property
    def lines(self) -> List[str]:
        """The lines of the file in which the play stands."""
        if self.path not in self.texts:
            try:
                self.texts[self.path] = labtexts.lines_of(Path(self.path).read_text(encoding="utf-8", errors="replace"))
            except OSError:
                self.texts[self.path] = []
        return self.texts[self.path]

    def show(self, stop: Optional[Dict[str, Any]]) -> None:
        """Writes where the play stands and why."""
        if stop is None:
            print("the play is over")
            return
        frames = self.client.ask("stackTrace", threadId=1)[1]["stackFrames"]
        self.line, self.frame = (frames[0]["line"], frames[0]["id"]) if frames else (0, 0)
        self.path = frames[0].get("source", {}).get("path", self.path) if frames else self.path
        reason = stop.get("text") or stop.get("description") or stop.get("reason", "")
        print(terminal.painted(f"stopped: {reason}", "look"))
        if 0 < self.line <= len(self.lines):
            print(f"{self.line:>5}  {self.lines[self.line - 1]}")

    def begin(self, line: Optional[int]) -> bool:
        """Starts the play; returns whether the draft is played."""
        self.client.ask("initialize", adapterID="melcard", linesStartAt1=True, columnsStartAt1=True, pathFormat="path")
        more = {"line": line} if line is not None else {"stopOnEntry": True}
        is_launched, why = self.client.ask("launch", program=str(self.draft), **more)
        if not is_launched:
            print(f"mel debug: {why}", file=sys.stderr)
            return False
        is_configured, why = self.client.ask("configurationDone")
        if not is_configured:
            print(f"mel debug: {why}", file=sys.stderr)
            return False
        stop = self.client.stop()
        if stop is not None:
            self.show(stop)
        return stop is not None

    def breakpoint(self, place: str) -> None:
        """Sets or deletes a breakpoint, or lists them."""
        if place:
            self.places = [it for it in self.places if it != place] if place in self.places else [*self.places, place]
        numbers = [int(it) for it in self.places if it.isdigit()]
        asked = [self.client.ask("setBreakpoints", source={"path": str(self.draft)}, breakpoints=[{"line": it} for it in numbers]),
                 self.client.ask("setFunctionBreakpoints", breakpoints=[{"name": it} for it in self.places if not it.isdigit()])]
        for name, (_, body) in zip([*map(str, numbers), *(it for it in self.places if not it.isdigit())],
                                   [(True, one) for _, found in asked for one in (found or {}).get("breakpoints", [])]):
            print(f"{name}: {'line ' + str(body.get('line', name)) if body.get('verified') else body.get('message', 'no instruction there')}")
        if not self.places:
            print("no breakpoint")

    def around(self) -> None:
        """Writes the lines around the current one."""
        for number in range(max(1, self.line - AROUND), min(len(self.lines), self.line + AROUND) + 1):
            print(f"{'>' if number == self.line else ' '}{number:>4}  {self.lines[number - 1]}")

    def variables(self) -> None:
        """Writes all bytes by their names."""
        for scope in (self.client.ask("scopes", frameId=self.frame)[1] or {}).get("scopes", []):
            print(terminal.painted(scope["name"], "quiet"))
            for it in self.client.ask("variables", variablesReference=scope["variablesReference"])[1]["variables"]:
                print(f"  {it['name']:<16} {it['value']}")

    def say(self, expression: str) -> None:
        """Writes the value of an expression, or does what a word of the adapter's console says."""
        is_known, body = self.client.ask("evaluate", expression=expression, frameId=self.frame, context="repl")
        print(body.get("result", "") if is_known else body)
        # What the play does of it is sent after the answer, and before the answer to a further question.
        self.client.ask("threads")
        for stop in self.client.stops:
            self.show(stop)
        self.client.stops.clear()

    def do(self, text: str) -> bool:
        """Does what a line says; returns whether the session goes on."""
        word, _, rest = text.partition(" ")
        rest = rest.strip()
        if word in MOVES and not rest:
            is_done, why = self.client.ask(MOVES[word], threadId=1)
            self.show(self.client.stop()) if is_done else print(why)
        elif word == "b":
            self.breakpoint(rest)
        elif word == "l" and not rest:
            self.around()
        elif word == "t" and not rest:
            for it in self.client.ask("stackTrace", threadId=1)[1]["stackFrames"]:
                print(f"{it['line']:>5}  {it['name']}")
        elif word == "v" and not rest:
            self.variables()
        elif word in ("h", "help", "?"):
            print(HELP)
        elif word in ("q", "quit", "exit"):
            return False
        else:
            self.say({"w": "watch", "k": "cut", "u": "whole", "g": "goto"}.get(word, word) + (f" {rest}" if rest else ""))
        return not self.client.is_over or bool(self.client.stops)


def session(source: Source, draft: Path, line: Optional[int]) -> int:
    """Reads lines, and does what they say, until the input or the adapter ends."""
    client = Client()
    try:
        console = Console(client, source, draft)
        if not console.begin(line):
            return 1
        print(terminal.painted("h has the words", "quiet"))
        last = ""
        while True:
            try:
                text = input("(mel) ").strip() or last
            except EOFError:
                return 0
            last = text if text in MOVES else ""
            if text and not console.do(text):
                return 0
    except Ended:
        print("mel debug: the adapter has ended", file=sys.stderr)
        return 1
    finally:
        client.close()


def add_words(words: argparse.ArgumentParser) -> None:
    """Adds the words of the command."""
    words.add_argument("draft", nargs="?", metavar="DRAFT", help="a draft, a deck, or a file in C; without it the adapter runs, for editors")
    words.add_argument("--line", type=int, metavar="N", help="stop first at the statement of this line")


def main(given: argparse.Namespace) -> int:
    """Debugs a draft at the terminal, or serves an editor."""
    if given.draft is None:
        sys.argv = ["mel debug"]
        debug.main()
        return 0
    source = sources.read(Path(given.draft))
    with tempfile.TemporaryDirectory(prefix="melcard-debug-") as folder:
        draft = source.path.resolve()
        if source.is_c and not origins.of(source).is_c:
            draft = Path(folder, f"{source.name}.draft")
            draft.write_bytes(source.draft)
        return session(source, draft, given.line)
