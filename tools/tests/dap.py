"""A small client of the Debug Adapter Protocol, which checks each message that it is sent against `dap.schema.json`."""

import json
import pathlib
import subprocess
import sys

HERE = pathlib.Path(__file__).resolve().parent
SCHEMA = json.loads((HERE / "dap.schema.json").read_text(encoding="utf-8"))
TYPES = {"string": str, "integer": int, "boolean": bool, "object": dict, "array": list, "null": type(None)}


def faults(value, schema, where="message"):
    """What a value has against a schema, as sentences. Of JSON Schema it knows the words that `dap.schema.json` has."""
    if "$ref" in schema:
        yield from faults(value, SCHEMA["definitions"][schema["$ref"].rpartition("/")[2]], where)
        return
    kinds = schema.get("type")
    kinds = [kinds] if isinstance(kinds, str) else kinds or []
    if kinds and not any(isinstance(value, TYPES[it]) and not (it == "integer" and isinstance(value, bool)) for it in kinds):
        yield f"{where} is no {' or '.join(kinds)}: {value!r}"
        return
    if "enum" in schema and value not in schema["enum"]:
        yield f"{where} is none of {schema['enum']}: {value!r}"
    if isinstance(value, dict):
        properties = schema.get("properties", {})
        yield from (f"{where} has no {it}" for it in schema.get("required", []) if it not in value)
        if schema.get("additionalProperties") is False:
            yield from (f"{where} has an unknown {it}" for it in value if it not in properties)
        for name, part in properties.items():
            if name in value:
                yield from faults(value[name], part, f"{where}.{name}")
    if isinstance(value, list) and "items" in schema:
        for at, it in enumerate(value):
            yield from faults(it, schema["items"], f"{where}[{at}]")


def checked(message):
    """A message, after its check: its envelope, and its body by its name."""
    found = list(faults(message, {"$ref": message.get("type", "none")} if message.get("type") in ("event", "response") else {"enum": []}))
    if message.get("type") == "event":
        found += faults(message.get("body"), {"$ref": "event:" + message["event"]}, message["event"])
    elif message.get("success"):
        found += faults(message.get("body"), {"$ref": "response:" + message["command"]}, message["command"])
    assert not found, found
    return message


class Client:
    """An adapter that runs, and the messages that it sent so far."""

    def __init__(self, adapter):
        self.program = subprocess.Popen([sys.executable, str(adapter)], stdin=subprocess.PIPE, stdout=subprocess.PIPE)
        self.sent, self.messages, self.received = 0, [], 0

    def __enter__(self):
        return self

    def __exit__(self, *_):
        self.program.stdin.close()
        self.program.wait(30)
        self.program.stdout.close()

    def read(self):
        """The next message; the adapter counts them from 1."""
        length = None
        while (line := self.program.stdout.readline().strip()) or length is None:
            assert line, "the adapter ended"
            name, _, value = line.partition(b":")
            length = int(value) if name.lower() == b"content-length" else length
        message = checked(json.loads(self.program.stdout.read(length)))
        self.received += 1
        assert message["seq"] == self.received
        self.messages.append(message)
        return message

    def send(self, command, **arguments):
        """Sends a request, and returns its number."""
        self.sent += 1
        content = json.dumps({"seq": self.sent, "type": "request", "command": command, "arguments": arguments}).encode()
        self.program.stdin.write(b"Content-Length: %d\r\n\r\n%s" % (len(content), content))
        self.program.stdin.flush()
        return self.sent

    def response(self, number):
        """The answer to a request."""
        while not ((message := self.read())["type"] == "response" and message["request_seq"] == number):
            pass
        return message

    def ask(self, command, **arguments):
        """The body of the answer to a request, which must succeed."""
        answer = self.response(self.send(command, **arguments))
        assert answer["success"], answer
        return answer["body"]

    def refused(self, command, **arguments):
        """Why a request failed."""
        answer = self.response(self.send(command, **arguments))
        assert not answer["success"], answer
        return answer["message"]

    def event(self, name):
        """The next event of a name that was not read yet."""
        while not ((message := self.read())["type"] == "event" and message["event"] == name):
            pass
        return message["body"]

    def start(self, program, *, lines=(), labels=(), **more):
        """Launches a draft with breakpoints, and returns the first stop."""
        self.ask("initialize", adapterID="melcard", linesStartAt1=True, pathFormat="path")
        self.ask("launch", program=str(program), **more)
        self.event("initialized")
        self.ask("setBreakpoints", source={"path": str(program)}, breakpoints=[{"line": it} if isinstance(it, int) else it for it in lines])
        self.ask("setFunctionBreakpoints", breakpoints=[{"name": it} for it in labels])
        self.ask("configurationDone")
        return self.event("stopped")

    def move(self, command):
        """Moves, and returns the stop that comes of it."""
        self.ask(command, threadId=1)
        return self.event("stopped")

    def frames(self):
        """The stack trace, as pairs of names and lines."""
        return [(it["name"], it["line"]) for it in self.ask("stackTrace", threadId=1)["stackFrames"]]

    def scope(self, name, frame=1):
        """The lines of a scope, as values by names."""
        found = next(it for it in self.ask("scopes", frameId=frame)["scopes"] if it["name"] == name)
        return {it["name"]: it["value"] for it in self.ask("variables", variablesReference=found["variablesReference"])["variables"]}

    def value(self, expression, context="watch"):
        """The value of an expression."""
        return self.ask("evaluate", expression=expression, frameId=1, context=context)["result"]
