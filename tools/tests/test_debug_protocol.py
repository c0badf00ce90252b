"""The debug adapter by its protocol: malformed messages, requests out of their order, arguments of any kind, and what a client chose.

It needs pytest, Hypothesis (Debian: python3-hypothesis), and the programs, built by tools/build or by `rt ci`.
"""

import io
import json
import pathlib
import re
import subprocess
import sys
import time

import dap
import pytest
from debugger.adapter import Adapter
from debugger.expressions import DEEPEST, LONGEST, BadExpression, Names, value_of
from debugger.walk import holds
from debugger.wire import LONGEST as LONGEST_MESSAGE
from debugger.wire import Broken, Malformed, Wire, framed, read_content, request_of
from desktexts import Play, sections_of

hypothesis = pytest.importorskip("hypothesis")
st = hypothesis.strategies

TOP = pathlib.Path(__file__).resolve().parent.parent.parent
ADAPTER = TOP / "tools" / "mel" / "debug.py"
SECONDS = 20  # for each fuzz test: after that no further round of examples is begun
ROUNDS, EXAMPLES = 20, 20
DRAFT = """format
power
app counter A000000100
STATIC count 2
SESSION seen 1
CONST most 0x0010
        SETB seen,1
again:  INCN count
        LOAD count
        STORE PB[0],2
        EXITLA 2
end
load counter
select counter
apdu 8001000002
apdu 8001000002
#> 0003 9000
dump counter
"""
LINE, FIRST = 8, 15  # of INCN, and of the first command


@pytest.fixture(name="draft")
def _draft(tmp_path):
    path = tmp_path / "counter.draft"
    path.write_text(DRAFT, encoding="utf-8")
    return path


@pytest.fixture(name="client")
def _client():
    with dap.Client(ADAPTER) as client:
        yield client


def served(content):
    """What the adapter does with an input: its status, the messages that it sends, and what it writes to the standard error."""
    done = subprocess.run([sys.executable, str(ADAPTER)], input=content, stdout=subprocess.PIPE, stderr=subprocess.PIPE, timeout=30, check=False)
    source, messages = io.BytesIO(done.stdout), []
    while (found := read_content(source)) is not None:
        messages.append(dap.checked(json.loads(found)))
    return done.returncode, messages, done.stderr.decode()


def sent(content):
    """A message of these bytes."""
    return b"Content-Length: %d\r\n\r\n%s" % (len(content), content)


def request(seq, command, **arguments):
    """A request as it is sent."""
    return framed({"seq": seq, "type": "request", "command": command, "arguments": arguments})


# ---- messages that are none

DEEP = b"[" * 100000 + b"]" * 100000


MALFORMED = [
    (b"[1, 2]", "a message is no object"), (b"null", "a message is no object"), (DEEP, "a message is nested too deeply"),
    (b'{"a":' * 50000, "a message is nested too deeply"), (b"\xff\xfe{}", "a message is not UTF-8"), (b"{", "a message is no JSON"),
    (b"", "a message is no JSON"), (b"{}", "a message has no type that is known"), (b'{"seq":7,"type":"request"}', "a request has no command"),
    (b'{"seq":7,"type":"request","command":5}', "a request has no command"), (b'{"type":"request","command":"threads"}', "a request has no number in seq"),
    (b'{"seq":true,"type":"request","command":"threads"}', "a request has no number in seq"),
    (b'{"seq":7,"type":"request","command":"threads","arguments":[]}', "the arguments of threads are no object")]


def test_a_malformed_message_is_an_error_and_the_next_is_answered():
    status, messages, told = served(b"".join(sent(content) + request(8, "threads") for content, _ in MALFORMED) + request(9, "disconnect"))
    assert (status, told) == (0, "")
    assert [it["message"] for it in messages[:-1:2]] == [why for _, why in MALFORMED]
    assert all(not it["success"] and it["request_seq"] in (0, 7) for it in messages[:-1:2])
    assert [(it["request_seq"], it["success"]) for it in messages[1::2]] == [(8, True)] * len(MALFORMED)
    assert (messages[-1]["request_seq"], messages[-1]["success"]) == (9, True)


BROKEN = [
    (b"\r\n{}", "a message has no Content-Length"), (b"Content-Length: x\r\n\r\n{}", "a message has a Content-Length that is no number"),
    (b"Content-Length: -5\r\n\r\n{}", "a message has a Content-Length that is no number"),
    (b"Content-Length: 99999999999999999999\r\n\r\n{}", "a message has a Content-Length that is no number"),
    (b"Content-Length: %d\r\n\r\n{}" % (LONGEST_MESSAGE + 1), f"a message is longer than {LONGEST_MESSAGE} bytes"),
    (b"Content-Length: 50\r\n\r\n{}", "the input ended inside a message"), (b"Content-Le", "the input ended inside a message"),
    (b"x" * 10000, "a header line of a message is too long"), (b"{}", "the input ended inside a message")]


def test_a_broken_stream_is_told():
    for content, why in BROKEN:
        with pytest.raises(Broken, match=f"^{why}$"):
            read_content(io.BytesIO(content))


@pytest.mark.parametrize("number", [0, 5])
def test_a_broken_stream_is_an_end_with_a_line(number):
    status, messages, told = served(request(1, "threads") + BROKEN[number][0])
    assert (status, told) == (1, f"debug: {BROKEN[number][1]}\n")
    assert [it["request_seq"] for it in messages] == [1]


def test_an_input_that_ends_between_messages_is_a_client_that_left():
    assert served(b"") == (0, [], "")
    assert served(request(1, "threads"))[0] == 0


def test_a_client_that_reads_no_more_is_no_traceback(draft):
    program = subprocess.Popen([sys.executable, str(ADAPTER)], stdin=subprocess.PIPE, stdout=subprocess.PIPE, stderr=subprocess.PIPE)
    program.stdout.close()
    program.stdin.write(request(1, "launch", program=str(draft)) + request(2, "configurationDone"))
    program.stdin.flush()
    assert program.wait(30) == 0
    assert program.stderr.read() == b""
    program.stdin.close()
    program.stderr.close()


# ---- order

EARLY = [
    ("configurationDone", {}), ("continue", {"threadId": 1}), ("next", {}), ("stepIn", {}), ("stepOut", {}), ("stepBack", {}), ("reverseContinue", {}),
    ("pause", {}), ("restart", {}), ("stackTrace", {}), ("scopes", {"frameId": 1}), ("variables", {"variablesReference": 1}),
    ("evaluate", {"expression": "1"}), ("readMemory", {"memoryReference": "0x10000", "count": 1}),
    ("disassemble", {"memoryReference": "0x100000", "instructionCount": 1}), ("exceptionInfo", {}), ("cut", {}), ("whole", {}),
    ("dataBreakpointInfo", {"name": "count"})]


def test_a_request_before_the_launch_is_refused(client):
    for command, arguments in EARLY:
        assert client.refused(command, **arguments) == "nothing was launched", command
    assert client.ask("threads")["threads"]


def test_breakpoints_before_the_launch_are_not_verified(client, draft):
    asked = client.ask("setBreakpoints", source={"path": str(draft)}, breakpoints=[{"line": LINE}])["breakpoints"]
    assert asked == [{"verified": False, "message": "nothing was launched"}]


@pytest.mark.parametrize("command", ["launch", "restart"])
def test_a_draft_that_is_refused_leaves_the_old_session_alive(client, draft, tmp_path, command):
    client.start(draft, lines=[LINE])
    other = tmp_path / "other.draft" if command == "launch" else draft
    other.write_text(DRAFT.replace("INCN count", "INCN counts"), encoding="utf-8")
    assert f"line {LINE} " in client.refused(command, **({"program": str(other)} if command == "launch" else {}))
    assert client.frames() == [("counter", LINE), ("apdu 8001000002", FIRST)]
    assert client.value("count") == "0000 (0)"
    client.move("next")
    assert client.value("count") == "0001 (1)"
    assert client.value("cut 1", "repl").startswith(f"line {FIRST}, power cut in write 1")


def test_a_launch_that_names_no_file_leaves_the_old_session_alive(client, draft, tmp_path):
    client.start(draft, lines=[LINE])
    assert client.refused("launch", program=str(tmp_path / "none")) == f"{tmp_path}/none: No such file or directory"
    assert client.refused("launch", program=str(tmp_path)).endswith(" is no file")
    assert client.refused("launch", program="/dev/zero") == "zero is no file"
    assert client.refused("launch", program="a\0b") == "program is no path of a file"
    assert client.refused("launch", program=str(draft), meldesk="/nowhere/meldesk") == "/nowhere/meldesk: No such file or directory"
    assert client.refused("launch", program=str(draft), line=4) == "counter.draft: line 4 is no statement"
    assert client.frames()[0] == ("counter", LINE)
    client.ask("restart")
    assert client.event("stopped")["reason"] == "breakpoint"


def test_a_draft_without_statements_ends_no_session(client, draft):
    draft.write_text("# nothing\n", encoding="utf-8")
    client.ask("launch", program=str(draft))
    client.ask("configurationDone")
    client.event("terminated")
    for command, arguments in (("stackTrace", {}), ("scopes", {"frameId": 1}), ("evaluate", {"expression": "1"}), ("cut", {}),
                               ("readMemory", {"memoryReference": "0x10000", "count": 1}), ("dataBreakpointInfo", {"name": "count"})):
        assert command == "dataBreakpointInfo" or client.refused(command, **arguments) == "the draft has no statement", command
    for command in ("next", "stepIn", "stepOut", "stepBack", "reverseContinue", "continue"):
        client.ask(command, threadId=1)
        client.event("terminated")
    draft.write_text(DRAFT, encoding="utf-8")
    client.ask("restart")
    assert client.event("stopped")["description"].startswith("line 16 expected ")


def test_what_is_no_path_is_a_sentence(client, draft):
    client.start(draft, lines=[LINE])
    assert client.refused("launch", program="\ud800") == "program is no path of a file"
    assert client.refused("launch", program=str(draft), meldesk="a\0b") == "meldesk is no path of a program"
    assert client.refused("launch", program=str(draft), meldesk="\ud800") == "meldesk is no path of a program"
    for path in ("\ud800", "\0", "file://[", "x" * 100000):
        found = client.ask("setBreakpoints", source={"path": path}, breakpoints=[{"line": 1}])["breakpoints"]
        assert found == [{"verified": False, "message": "counter.draft is what is played"}]
    client.ask("initialize", pathFormat="uri")
    assert client.refused("launch", program="file://[").endswith("[: No such file or directory")
    assert not client.ask("setBreakpoints", source={"path": "file://["}, breakpoints=[{"line": 1}])["breakpoints"][0]["verified"]
    assert client.frames()[0] == ("counter", LINE)


def test_bytes_may_have_a_hit_condition(client, draft):
    client.start(draft, lines=[LINE])
    data_id = client.ask("dataBreakpointInfo", name="count", frameId=1)["dataId"]
    asked = [{"dataId": data_id, "hitCondition": it} for it in ("often", "2")] + [{"dataId": "count"}]
    found = client.ask("setDataBreakpoints", breakpoints=asked)["breakpoints"]
    assert [it["verified"] for it in found] == [False, True, False] and all(it.get("message") for it in found if not it["verified"])
    client.ask("setBreakpoints", source={"path": str(draft)}, breakpoints=[])
    assert client.move("continue")["reason"] == "data breakpoint"
    assert client.value("count") == "0002 (2)"


@pytest.mark.parametrize("pattern, result, does", [
    ("*0" * 40 + "*1", "0" * 4000, False), ("*0?" * 30 + "*", "0" * 4000, True), ("*", "", True), ("", "", False), ("??", "9", False), ("9?00", "9000", True),
    ("9* 00", "9000", True), ("*9000", "00019000", True), ("00*00", "000", False), ("a*b*a", "ABA", True), ("a*b*a", "aba b", False), ("*00*00", "0000", True),
    ("*000*00", "0000", False), ("[0-9]*", "9", False), ("st*03*", "static 0A 03", True)])
def test_a_pattern_is_compared_in_bounded_time(pattern, result, does):
    begun = time.process_time()
    assert holds(pattern, result) == does and time.process_time() - begun < 2


# ---- what a client chose

def test_lines_and_columns_from_0_on(client, draft):
    client.ask("initialize", adapterID="melcard", linesStartAt1=False, columnsStartAt1=False)
    client.ask("launch", program=str(draft))
    set_ = client.ask("setBreakpoints", source={"path": str(draft)}, breakpoints=[{"line": LINE - 1}])["breakpoints"][0]
    assert (set_["verified"], set_["line"]) == (True, LINE - 1)
    assert client.ask("breakpointLocations", source={"path": str(draft)}, line=LINE - 1)["breakpoints"] == [{"line": LINE - 1}]
    client.ask("configurationDone")
    client.event("stopped")
    frames = client.ask("stackTrace", threadId=1)["stackFrames"]
    assert [(it["line"], it["column"]) for it in frames] == [(LINE - 1, 0), (FIRST - 1, 0)]
    told = [it["body"] for it in client.messages if it.get("event") == "output" and it["body"]["category"] == "stdout"]
    assert told[0]["line"] == 0 and told[0]["output"].startswith("1 format")
    code = client.ask("disassemble", memoryReference=frames[0]["instructionPointerReference"], instructionCount=1)["instructions"]
    assert code[0]["line"] == LINE - 1


def test_paths_as_addresses(client, tmp_path):
    path = tmp_path / "my purse.draft"
    path.write_text(DRAFT, encoding="utf-8")
    client.ask("initialize", adapterID="melcard", pathFormat="uri")
    client.ask("launch", program=str(path))
    found = client.ask("setBreakpoints", source={"path": path.as_uri()}, breakpoints=[{"line": LINE}])["breakpoints"][0]
    assert found["verified"] and found["source"]["path"] == path.as_uri() and "%20" in path.as_uri()
    assert client.refused("initialize", pathFormat="dos") == "pathFormat is path or uri, not dos"


def test_a_launch_without_debugging_stops_nowhere(client, draft):
    client.ask("initialize", adapterID="melcard")
    client.ask("launch", program=str(draft), noDebug=True)
    client.ask("setBreakpoints", source={"path": str(draft)}, breakpoints=[{"line": LINE}])
    client.ask("configurationDone")
    assert client.event("exited")["exitCode"] == 0
    assert not any(it.get("event") == "stopped" for it in client.messages)
    assert any(it.get("event") == "output" and it["body"]["output"].endswith("static 0002\n") for it in client.messages)


# ---- arguments

WRONG = [
    ("launch", {}, "launch has no program"), ("launch", {"program": 5}, "program of launch is not a text"),
    ("launch", {"program": "x", "line": "9"}, "line of launch is not a whole number"),
    ("launch", {"program": "x", "noDebug": "yes"}, "noDebug of launch is not true or false"),
    ("launch", {"program": "x", "line": 10 ** 30}, "line of launch is out of range"),
    ("setBreakpoints", {}, "setBreakpoints has no source"), ("setBreakpoints", {"source": 1}, "source of setBreakpoints is not an object"),
    ("setBreakpoints", {"source": {"path": 1}}, "path of source is not a text"),
    ("setBreakpoints", {"source": {}, "breakpoints": [1]}, "an item of breakpoints of setBreakpoints is no object"),
    ("setBreakpoints", {"source": {}, "breakpoints": [{}]}, "breakpoints has no line"),
    ("setBreakpoints", {"source": {}, "breakpoints": [{"line": 1, "hitCondition": 3}]}, "hitCondition of breakpoints is not a text"),
    ("setBreakpoints", {"source": {}, "lines": ["a"]}, "an item of lines of setBreakpoints is not a whole number"),
    ("setExceptionBreakpoints", {"filters": [1]}, "an item of filters of setExceptionBreakpoints is not a text"),
    ("setFunctionBreakpoints", {}, "setFunctionBreakpoints has no breakpoints"),
    ("setInstructionBreakpoints", {"breakpoints": [{"instructionReference": "here"}]}, "instructionReference of setInstructionBreakpoints is no address"),
    ("scopes", {"frameId": 99}, "there is no frame 99"), ("scopes", {"frameId": -1}, "there is no frame -1"),
    ("variables", {"variablesReference": 99}, "there are no variables 99"), ("variables", {"variablesReference": 0}, "there are no variables 0"),
    ("readMemory", {"memoryReference": "x", "count": 1}, "memoryReference of readMemory is no address"),
    ("readMemory", {"memoryReference": "0x10000", "count": -1}, "count of readMemory is negative"),
    ("disassemble", {"memoryReference": "0x100000", "instructionCount": 10 ** 9}, "disassemble writes at most 4096 instructions"),
    ("disassemble", {"memoryReference": "0x100000", "instructionCount": -1}, "disassemble writes at most 4096 instructions"),
    ("evaluate", {"expression": 1}, "expression of evaluate is not a text"), ("evaluate", {"expression": "1", "frameId": 7}, "there is no frame 7"),
    ("cut", {"write": 0}, "cut has in write the number of a device write, and in fill 8 bytes"),
    ("cut", {"fill": "FF"}, "cut has in write the number of a device write, and in fill 8 bytes"), ("nothing", {}, "there is no request nothing")]


def test_wrong_arguments_are_sentences(client, draft):
    client.start(draft, lines=[LINE])
    assert [client.refused(command, **arguments) for command, arguments, _ in WRONG] == [why for _, _, why in WRONG]
    assert client.frames()[0] == ("counter", LINE)


def test_a_wrong_hit_condition_is_not_verified(client, draft):
    client.start(draft, lines=[LINE])
    asked = [{"line": LINE, "hitCondition": it} for it in ("often", "-1", "1.5", "2", ">= 2", "")]
    found = client.ask("setBreakpoints", source={"path": str(draft)}, breakpoints=asked)["breakpoints"]
    assert [it["verified"] for it in found] == [False, False, False, True, True, True]
    assert found[0]["message"] == "the hit condition often is no number"


def test_memory_and_code_are_bounded(client, draft):
    client.start(draft, lines=[LINE])
    read = client.ask("readMemory", memoryReference="0x10000", count=2 ** 31)
    assert read["unreadableBytes"] == 2 ** 31 - 2
    assert client.ask("readMemory", memoryReference="0x10000", offset=-2 ** 31, count=5)["unreadableBytes"] == 5
    code = client.ask("disassemble", memoryReference="0x100000", instructionOffset=-2 ** 31, instructionCount=4096)["instructions"]
    assert len(code) == 4096


# ---- expressions

def names_of_draft():
    """The names at the first turn of the first command."""
    play = Play(DRAFT.encode())
    statement = next(it for it in play.statements() if it.turns)
    found = Names(statement.before(1), 1, sections_of(DRAFT.encode())[0])
    play.close()
    return found


@pytest.mark.parametrize("text", ["~" * 900 + "1", "(" * 450 + "1" + ")" * 450, "not " * 200 + "1", "-" * 999 + "1", "1" + "+1" * 300, "1" * (LONGEST + 1),
                                  "1" + " << 4096" * 100, "9" * 999 + "*" + "9" * 999, "count[0:1:2]", "lambda: 1", "1 if 1 else 2", "1.5", "1e5",
                                  "'a'", "count+'1'", "b'1'", "f'1'", "-1 >> -1", "1 << -1", "1 % 0", "SB[-1]", "SB[99999999999]", "\0", "é", "count.size.size"],
    ids=lambda it: it[:12])
def test_an_expression_is_bounded(text):
    with pytest.raises(BadExpression) as why:
        value_of(text, names_of_draft())
    assert why.value.args[0] and "\n" not in why.value.args[0][:20]


def test_a_deep_expression_that_is_allowed_has_a_value():
    assert value_of("~" * (DEEPEST - 10) + "1", names_of_draft()) == 1


# ---- any messages

def any_value():
    """Any value of JSON, and what a client may really send."""
    leaves = st.none() | st.booleans() | st.integers() | st.floats(allow_nan=False) | st.text(max_size=8) | st.sampled_from(
        ["count", "seen", "again", "0x10000", "0x100000", "0x18000", "cut 1", "goto 15", "whole", "watch count", "back", "count == 1", "repl", "A000000100:0:2:count",
         "2", ">= 1", "{count}", -1, 0, 1, 2, 8, 15, 2 ** 31, 10 ** 20])
    return st.recursive(leaves, lambda it: st.lists(it, max_size=3) | st.dictionaries(st.text(max_size=4), it, max_size=3), max_leaves=5)


COMMANDS = sorted({name[3:] for name in dir(Adapter) if name.startswith("on_")} - {"disconnect", "launch"}) + ["nothing", ""]
KEYS = ["frameId", "variablesReference", "expression", "context", "line", "endLine", "breakpoints", "source", "lines", "name", "memoryReference", "offset",
        "count", "start", "instructionOffset", "instructionCount", "write", "fill", "filters", "startFrame", "levels", "dataId", "condition", "hitCondition",
        "logMessage", "instructionReference", "linesStartAt1", "columnsStartAt1", "pathFormat", "path"]
GIVEN = st.dictionaries(st.sampled_from(KEYS), any_value() | st.lists(st.dictionaries(st.sampled_from(KEYS), any_value(), max_size=4), max_size=2)
                        | st.dictionaries(st.sampled_from(KEYS), any_value(), max_size=3), max_size=5)
REQUESTS = st.lists(st.tuples(st.sampled_from(COMMANDS), GIVEN), max_size=12)
INTERNAL = re.compile(r"failed in the debugger|Error\b|Traceback")


def answered(content):
    """The messages that an adapter of this process sends to an input."""
    sink = io.BytesIO()
    adapter = Adapter(Wire(io.BytesIO(content), sink))
    adapter.serve()
    source, messages = io.BytesIO(sink.getvalue()), []
    while (found := read_content(source)) is not None:
        messages.append(dap.checked(json.loads(found)))
    return messages


def tried(body, *strategies):
    """Tries examples in rounds, as long as there is time; the first round is always tried."""
    end = time.monotonic() + SECONDS
    for number in range(ROUNDS):
        trial = hypothesis.given(st.tuples(*strategies))(lambda given: body(*given))
        trial = hypothesis.settings(max_examples=EXAMPLES, deadline=None, database=None, suppress_health_check=list(hypothesis.HealthCheck))(trial)
        hypothesis.seed(number)(trial)()
        if time.monotonic() > end:
            break


def test_any_requests_are_each_answered_once(draft):
    counts, moved = [], []

    def trial(requests, is_launched):
        first = request(1, "initialize") + (request(2, "launch", program=str(draft), line=FIRST) + request(3, "configurationDone") if is_launched else b"")
        messages = answered(first + b"".join(request(number, name, **given) for number, (name, given) in enumerate(requests, 4)))
        replies = [it for it in messages if it["type"] == "response"]
        assert [it["request_seq"] for it in replies] == [1, *([2, 3] if is_launched else []), *range(4, 4 + len(requests))]
        wrong = [it["message"] for it in replies if not it["success"] and (INTERNAL.search(it["message"]) or not it["message"])]
        assert not wrong
        counts.append(len(requests))
        moved.extend(it for it in messages if it.get("event") == "stopped")

    tried(trial, REQUESTS, st.booleans())
    assert sum(counts) > 20 and moved


def test_any_bytes_are_messages_or_an_end():
    seen = set()
    words = [b"Content-Length: ", b"2", b"\r\n", b"\r\n\r\n", b"{}", b"[", b"\xff", b":", b"-1", b"999999999999", b"\0"]
    whole = st.builds(sent, st.binary(max_size=6) | st.sampled_from([b"{}", b"[[", b'{"type":"event"}', b'{"type":"request","seq":1,"command":"x"}']))

    def trial(content):
        source = io.BytesIO(b"".join(content))
        try:
            while (found := read_content(source)) is not None:
                seen.add(type(request_of(found)))
        except Broken as why:
            assert str(why)
            seen.add(Broken)

    tried(trial, st.lists(whole | st.sampled_from(words) | st.binary(max_size=6), max_size=6))
    assert {Broken, Malformed} <= seen


def test_any_expression_has_a_value_or_a_sentence():
    names, seen = names_of_draft(), set()
    words = ["count", "seen", "again", "most", "DT", "C", "Z", "SB[0]", "PB[0],2", "count+1", "count.size", "1", "0x10", "007", "+", "-", "*", "/", "%", "&", "|",
             "^", "<<", ">>", "~", "==", "!=", "<", "and", "or", "not", "&&", "||", "!", "(", ")", " ", ",", "[", "]", ":", "if", "else", "lambda", "'", "\0"]

    def trial(text):
        try:
            seen.add(type(int(value_of(text, names))))
        except BadExpression as why:
            assert str(why)
            seen.add(BadExpression)

    tried(trial, st.lists(st.sampled_from(words), max_size=10).map(" ".join) | st.text(max_size=10))
    assert seen == {int, BadExpression}
