"""Messages of the Debug Adapter Protocol over a pair of streams."""

from __future__ import annotations

import json
import queue
import threading
from dataclasses import dataclass
from typing import IO, Any, Callable, Optional, Union

LONGEST = 1 << 24  # bytes of a message
HEADER = 4096  # bytes of a line before it


class Broken(ValueError):
    """Why a stream carries no more messages."""


@dataclass
class Malformed:
    """A message that no request can be read from: what is said of it, and the number and the name that it has, or 0 and nothing."""

    why: str
    seq: int = 0
    command: str = ""


def content_length(line: bytes) -> Optional[int]:
    """Returns the length that a header line has, or None if it has another field.

    # Errors

    Broken, if it is no length of a message.
    """
    name, _, value = line.partition(b":")
    if name.strip().lower() != b"content-length":
        return None
    digits = value.strip()
    if not digits.isdigit() or len(digits) > 10:
        raise Broken("a message has a Content-Length that is no number")
    if int(digits) > LONGEST:
        raise Broken(f"a message is longer than {LONGEST} bytes")
    return int(digits)


def read_content(source: IO[bytes]) -> Optional[bytes]:
    """Returns the content of the next message, or None at the end of the stream.

    # Errors

    Broken, if the stream carries no such messages, or ends inside one.
    """
    length, has_begun = None, False
    while True:
        line = source.readline(HEADER)
        if not line and not has_begun:
            return None
        has_begun = True
        if not line.endswith(b"\n"):
            raise Broken("a header line of a message is too long" if len(line) == HEADER else "the input ended inside a message")
        if line in (b"\r\n", b"\n"):
            break
        found = content_length(line)
        length = length if found is None else found
    if length is None:
        raise Broken("a message has no Content-Length")
    content = source.read(length)
    if len(content) < length:
        raise Broken("the input ended inside a message")
    return content


def request_of(content: bytes) -> Union[dict, Malformed, None]:
    """Returns the request of a message, why it is none, or None for a message that wants no answer."""
    try:
        message: Any = json.loads(content.decode())
    except UnicodeDecodeError:
        return Malformed("a message is not UTF-8")
    except RecursionError:
        return Malformed("a message is nested too deeply")
    except ValueError:
        return Malformed("a message is no JSON")
    if not isinstance(message, dict):
        return Malformed("a message is no object")
    if message.get("type") in ("response", "event"):
        return None
    seq, command = message.get("seq"), message.get("command")
    number = seq if isinstance(seq, int) and not isinstance(seq, bool) else 0
    name = command if isinstance(command, str) else ""
    if message.get("type") != "request":
        return Malformed("a message has no type that is known", number, name)
    if not isinstance(command, str):
        return Malformed("a request has no command", number)
    if not isinstance(seq, int) or isinstance(seq, bool):
        return Malformed("a request has no number in seq", 0, name)
    given = message.get("arguments")
    if given is not None and not isinstance(given, dict):
        return Malformed(f"the arguments of {command} are no object", number, name)
    return {"seq": number, "command": name, "arguments": given or {}}


def framed(message: dict) -> bytes:
    """Returns a message as it is sent: its length, an empty line and its text."""
    content = json.dumps(message, separators=(",", ":")).encode()
    return b"Content-Length: %d\r\n\r\n%s" % (len(content), content)


class Wire:
    """What a client sends, read by a thread of its own so that a play can be paused, and what is sent to it. A message that is no request is
    refused here. `form` changes what is sent to the form that the client wants."""

    def __init__(self, source: IO[bytes], sink: IO[bytes]) -> None:
        self._sink = sink
        self._sent = 0
        self._waiting: "queue.Queue[Union[dict, Malformed, None]]" = queue.Queue()
        self.form: Callable[[Any], Any] = lambda it: it
        # Why the input ended, if not between two messages.
        self.why: Optional[str] = None
        self.has_ended = False
        threading.Thread(target=self._read, args=(source,), daemon=True).start()

    def _read(self, source: IO[bytes]) -> None:
        try:
            while (content := read_content(source)) is not None:
                message = request_of(content)
                if message is not None:
                    self._waiting.put(message)
        except Broken as why:
            self.why = str(why)
        except OSError as why:
            self.why = f"the input cannot be read: {why}"
        self._waiting.put(None)

    def next(self) -> Optional[dict]:
        """Waits for the next request; None is the end of all."""
        while isinstance(found := self._waiting.get(), Malformed):
            self._refuse(found.seq, found.command, found.why)
        return found

    def waiting(self) -> Optional[dict]:
        """Returns a request that has come already, or None; `has_ended` is true after the last."""
        try:
            while isinstance(found := self._waiting.get_nowait(), Malformed):
                self._refuse(found.seq, found.command, found.why)
        except queue.Empty:
            return None
        if found is None:
            self.has_ended = True
            self._waiting.put(None)
        return found

    def _send(self, message: dict) -> None:
        self._sent += 1
        self._sink.write(framed({"seq": self._sent, **message}))
        self._sink.flush()

    def event(self, name: str, **body: object) -> None:
        """Sends an event."""
        self._send({"type": "event", "event": name, "body": self.form(body)})

    def answer(self, request: dict, body: Optional[dict] = None) -> None:
        """Answers a request that succeeded."""
        self._send({"type": "response", "request_seq": request["seq"], "success": True, "command": request["command"], "body": self.form(body or {})})

    def refuse(self, request: dict, why: str) -> None:
        """Answers a request that failed."""
        self._refuse(request["seq"], request["command"], why)

    def _refuse(self, seq: int, command: str, why: str) -> None:
        error = {"id": 1, "format": why.replace("{", "(").replace("}", ")"), "showUser": True}
        self._send({"type": "response", "request_seq": seq, "success": False, "command": command, "message": why, "body": {"error": error}})
