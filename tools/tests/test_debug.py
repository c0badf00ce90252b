"""The debug adapter by a small client: what it sends is checked against the protocol, and against plays of `melcard`.

It needs pytest, and the programs, built by tools/build or by `rt ci`.
"""

import base64
import pathlib
import subprocess

import dap
import labtexts
import pytest
from card import program_path
from debugger.expressions import BadExpression, Names, value_of
from debugger.walk import holds
from desktexts import Play, sections_of

TOP = pathlib.Path(__file__).resolve().parent.parent.parent
ADAPTER = TOP / "tools" / "mel" / "debug.py"
# A purse whose debit calls a routine, and a terminal's application that delegates to it.
DRAFT = """format
power
app purse A000000100
STATIC balance 2 03E8
STATIC debits 2
STATIC pin 2 1234
SESSION seen 1
PUBLIC amount 0 2
CONST poor 0x6985
        SETB seen,1
        CMPB INS,0x40
        JUMP NE,answer
        CALL ALL,check
        JUMP LT,over
        PRIM 3,2
        LOAD amount
        SUBN balance
        POPN amount.size
        INCN debits
        PRIM 3,1
answer: LOAD balance
        STORE PB[0],balance.size
        EXITLA balance.size
over:   EXITSW poor
check:  LOAD balance
        LOAD amount
        CMPN DT[-4],2
        POPN 4
        RET
end
app gate A000000101
STATIC to 6 05A000000100
        LOADA to
        PRIM 7
        SETB SB[100],1
end
load purse
load gate
select purse
apdu 80 40 0000 (0064) 02
#> 0384 9000
apdu 80 40 0000 (FFFF) 02
#> 6985
select gate
apdu 80 40 0000 (0001) 02
#> abend 03
dump purse
#> static 0383 0002 1234
"""


def line_of(text, draft=DRAFT):
    """The number of the first line of a draft that has a text."""
    return next(number for number, line in enumerate(draft.splitlines(), 1) if text in line)


FIRST, SECOND, THIRD = line_of("apdu"), line_of("(FFFF)"), line_of("(0001)")


@pytest.fixture(name="draft")
def _draft(tmp_path):
    path = tmp_path / "purse.draft"
    path.write_text(DRAFT, encoding="utf-8")
    return path


@pytest.fixture(name="client")
def _client():
    with dap.Client(ADAPTER) as client:
        yield client


def test_a_run_stops_at_lines_and_shows_names(client, draft):
    stop = client.start(draft, lines=[line_of("SUBN")])
    assert stop["reason"] == "breakpoint"
    assert client.frames() == [("purse", line_of("SUBN")), ("apdu 8040000002006402", FIRST)]
    assert client.scope("Static") == {"balance": "03E8 (1000)", "debits": "0000 (0)", "pin": '1234 (4660) ".4"'}
    assert client.scope("Session") == {"seen": "01 (1)"}
    assert client.scope("Stack") == {"DT[-2]": '0064 (100) ".d"'}
    assert client.scope("Public")["amount"] == '0064 (100) ".d"'
    assert client.scope("Header")["Lc"] == "0002 (2)"
    assert (client.scope("Flags")["protection"], client.scope("Flags")["writes"]) == ("on", "0")
    assert client.scope("Statement", 2)["text"] == "apdu 8040000002006402"


def test_steps_go_in_over_out_and_back(client, draft):
    client.start(draft, lines=[line_of("CALL")])
    assert client.move("stepIn")["reason"] == "step"
    assert client.frames()[:2] == [("check", line_of("check:")), ("purse", line_of("CALL"))]
    client.move("next")
    client.move("stepOut")
    assert client.frames()[0] == ("purse", line_of("JUMP LT"))
    client.move("stepBack")
    assert client.frames()[0] == ("check", line_of("RET"))
    assert client.move("reverseContinue")["reason"] == "breakpoint"
    assert client.frames()[0] == ("purse", line_of("CALL"))
    client.move("next")
    assert client.frames()[0] == ("purse", line_of("JUMP LT"))


def test_a_chain_has_a_frame_for_each_application(client, draft):
    client.start(draft, line=THIRD, labels=["purse.check"])
    assert client.frames() == [("gate", line_of("LOADA to")), ("apdu 8040000002000102", THIRD)]
    assert client.move("continue")["reason"] == "function breakpoint"
    assert [name for name, _ in client.frames()] == ["check", "purse", "gate", "apdu 8040000002000102"]
    assert client.scope("Static", 3) == {"to": "05A000000100"}
    client.move("stepOut")
    client.move("stepOut")
    assert client.frames()[0] == ("gate", line_of("SB[100]"))


def test_an_abend_stops_and_is_told(client, draft):
    client.start(draft, line=THIRD)
    stop = client.move("continue")
    assert (stop["reason"], stop["text"].split(":")[0]) == ("exception", "abend 03")
    assert client.ask("exceptionInfo", threadId=1)["exceptionId"] == "abend"
    assert client.frames()[0] == ("gate", line_of("SB[100]"))


def test_a_wrong_answer_stops_and_leads_back(client, tmp_path):
    # A planted fault: the sum is added.
    path = tmp_path / "wrong.draft"
    path.write_text(DRAFT.replace("SUBN balance", "ADDN balance"), encoding="utf-8")
    stop = client.start(path)
    assert (stop["reason"], stop["text"]) == ("exception", f"line {FIRST} expected 0384 9000, was 044C9000")
    assert client.value("watch balance", "repl").startswith("balance: 2 bytes")
    assert client.move("reverseContinue")["text"] == "balance changes here"
    assert client.frames()[0] == ("purse", line_of("SUBN"))


def test_conditions_counts_and_messages(client, draft):
    client.start(draft, lines=[{"line": line_of("check:"), "condition": "amount > balance && INS == 0x40"},
                               {"line": line_of("RET"), "logMessage": "{amount} of {balance}"}])
    assert client.frames()[-1] == ("apdu 8040000002FFFF02", SECOND)
    client.move("continue")
    told = [it["body"]["output"] for it in client.messages if it.get("event") == "output"]
    assert '0064 (100) ".d" of 03E8 (1000)\n' in told
    client.ask("setBreakpoints", source={"path": str(draft)}, breakpoints=[{"line": line_of("check:"), "hitCondition": "2"}])
    client.value(f"goto {FIRST}", "repl")
    client.event("stopped")
    client.move("continue")
    assert client.frames()[-1][1] == SECOND


def test_bytes_that_change_stop_a_run(client, draft):
    client.start(draft, line=FIRST)
    found = client.ask("dataBreakpointInfo", name="debits", frameId=1)
    assert client.ask("setDataBreakpoints", breakpoints=[{"dataId": found["dataId"]}])["breakpoints"][0]["verified"]
    assert client.move("continue")["reason"] == "data breakpoint"
    assert client.frames()[0] == ("purse", line_of("PRIM 3,1"))
    assert client.value("debits") == "0001 (1)"
    assert client.move("reverseContinue")["reason"] == "data breakpoint"
    assert client.value("debits") == "0000 (0)"


def test_memory_and_code_are_read(client, draft):
    client.start(draft, lines=[line_of("SUBN")])
    shown = client.ask("evaluate", expression="balance", frameId=1)
    read = client.ask("readMemory", memoryReference=shown["memoryReference"], offset=2, count=16)
    assert (base64.b64decode(read["data"]), read["unreadableBytes"]) == (bytes.fromhex("00001234"), 12)
    at = client.ask("stackTrace", threadId=1)["stackFrames"][0]["instructionPointerReference"]
    code = client.ask("disassemble", memoryReference=at, instructionOffset=-1, instructionCount=3)["instructions"]
    assert [it["instruction"] for it in code] == ["LOAD amount", "SUBN balance", "POPN amount.size"]
    assert client.ask("setInstructionBreakpoints", breakpoints=[{"instructionReference": code[2]["address"]}])["breakpoints"][0]["verified"]
    assert client.move("continue")["reason"] == "instruction breakpoint"


@pytest.mark.parametrize("write", range(1, 7))
def test_power_is_cut_and_comes_back(client, draft, write):
    client.start(draft, lines=[line_of("PRIM 3,1")])
    done = client.ask("cut", write=write)
    assert client.event("stopped")["reason"] == "goto"
    assert client.frames() == [("dump A000000100", FIRST)]
    card = subprocess.run([program_path("mellab"), "sweep"], input=subprocess.run(
        [program_path("meldesk"), "deck"], input=DRAFT.encode(), stdout=subprocess.PIPE, check=True).stdout, stdout=subprocess.PIPE, check=True)
    swept = labtexts.read_text(card.stdout.decode()).swept
    word = next(word for it in swept if it.number == FIRST for word, first, last in it.runs if first <= write <= last)
    assert done["text"].split(": ")[1] == word
    assert client.scope("Static")["balance"] == ("03E8 (1000)" if word == "before" else "0384 (900)")
    client.ask("whole")
    client.event("stopped")
    assert client.frames()[0] == ("purse", line_of("PRIM 3,1"))


def test_a_cut_here_is_in_the_next_write(client, draft):
    client.start(draft, lines=[line_of("PRIM 3,1")])
    assert f"line {FIRST}, power cut in write 1: " in client.value("cut", "repl")
    client.event("stopped")
    assert "has a cut" in client.refused("cut")


def test_a_draft_with_errors_is_told_by_line(client, tmp_path):
    path = tmp_path / "bad.draft"
    path.write_text(DRAFT.replace("INCN debits", "INCN debit"), encoding="utf-8")
    client.ask("initialize", adapterID="melcard")
    assert f"line {line_of('INCN debits')} " in client.refused("launch", program=str(path))
    told = [it["body"] for it in client.messages if it.get("event") == "output"]
    assert told and told[0]["line"] == line_of("INCN debits") and told[0]["source"]["path"] == str(path)
    assert client.refused("configurationDone") == "nothing was launched"


def test_the_end_is_a_stop_and_then_the_end(client, draft):
    client.start(draft, line=THIRD)
    client.ask("setExceptionBreakpoints", filters=[])
    assert client.move("continue")["text"] == "the end of the play"
    told = [it["body"]["output"] for it in client.messages if it.get("event") == "output" and it["body"]["category"] == "stdout"]
    played = subprocess.run([program_path("melcard"), "play"], input=subprocess.run(
        [program_path("meldesk"), "deck"], input=DRAFT.encode(), stdout=subprocess.PIPE, check=True).stdout, stdout=subprocess.PIPE, check=True)
    assert [it.strip().rpartition(": ")[2] for it in told] == [it.partition(" ")[2] for it in played.stdout.decode().splitlines()]
    client.ask("continue", threadId=1)
    client.event("terminated")


def test_lines_without_code_move_a_breakpoint(client, draft):
    client.start(draft, line=FIRST)
    found = client.ask("setBreakpoints", source={"path": str(draft)}, breakpoints=[{"line": line_of("CONST")}, {"line": 1000}])["breakpoints"]
    assert (found[0]["verified"], found[0]["line"], found[1]["verified"]) == (True, line_of("SETB seen"), False)
    other = client.ask("setBreakpoints", source={"path": "/other.draft"}, breakpoints=[{"line": 1}])["breakpoints"]
    assert not other[0]["verified"]


def test_wrong_requests_are_refused(client, draft):
    client.start(draft, line=FIRST)
    assert "no request" in client.refused("jump")
    assert client.refused("scopes") == "scopes has no frameId"
    assert "no name" in client.refused("evaluate", expression="nothing", frameId=1)
    assert "not whole" in client.refused("evaluate", expression="SB[5],4", frameId=1)
    assert "no expression" in client.refused("evaluate", expression=None, frameId=1)
    assert not client.ask("dataBreakpointInfo", name="1 + 1", frameId=1)["dataId"]


@pytest.mark.parametrize("text, value", [
    ("balance", 1000), ("balance+1", 0xE8), ("balance + 1", 1001), ("balance.size", 2), ("SB[4],2", 0x1234), ("SB[4]", 0x12), ("poor", 0x6985),
    ("answer", None), ("amount * 2 - 1", 199), ("pin == 0x1234 && !(seen != 1)", 1), ("not seen or Lc == 2", 1), ("1 <= Lc < 3", 1),
    ("DT - LB", 2), ("0010", 10), ("C + Z", 0)])
def test_expressions_are_over_names(text, value):
    play = Play(DRAFT.encode())
    statement = next(it for it in play.statements() if it.line == FIRST)
    sections = sections_of(DRAFT.encode())
    number = next(it for it in range(1, len(statement.turns) + 1) if statement.turn(it)["source"] == line_of("SUBN"))
    names = Names(statement.before(number), 1, sections[0])
    found = int(value_of(text, names))
    play.close()
    assert found == (sections[0].labels["answer"] if value is None else value)


@pytest.mark.parametrize("text", ["", "balance.x", "nothing", "SB[0", "f(1)", "'a'", "SB[7],1", "1 << 100000", "1 / 0", "[1]", "balance = 1"])
def test_wrong_expressions_are_none(text):
    play = Play(DRAFT.encode())
    statement = next(it for it in play.statements() if it.turns)
    names = Names(statement.before(1), 1, sections_of(DRAFT.encode())[0])
    play.close()
    with pytest.raises(BadExpression):
        value_of(text, names)


def test_names_are_of_their_sections_however_these_are_written():
    found = sections_of(DRAFT.replace("app purse A0", "app purse a0").replace("\nselect purse", "\nselect a000000100").encode())
    assert [(it.name, it.aid, it.static, it.session) for it in found] == [("purse", "A000000100", 6, 1), ("gate", "A000000101", 6, 0)]
    assert (found[0].names["amount"].operand, found[0].numbers["poor"], sorted(found[0].labels)) == ("PB[0]", "0x6985", ["answer", "check", "over"])


def test_expectations_hold_as_in_the_laboratory():
    assert holds("0001 9000", "00019000") and holds("static 00??", "static 0002") and holds("*9000", "9000") and holds("OFF AT*", "off at write 3")
    assert not holds("", "") and not holds("0001", "00019000") and not holds("a.c", "abc")


def test_steps_give_the_bytes_of_dumps():
    play = Play(DRAFT.encode())
    last = next(it for it in play.statements() if it.line == FIRST).after()
    assert last.read(1, 0, 6) == bytes.fromhex("038400011234")
    play.close()


LOOP = """format
power
app loop A000000100
STATIC n 2
SESSION i 2
again:  INCN i
        CALL ALL,push
        CMPW i,200
        JUMP NE,again
        INCN n
        EXIT
push:   PUSHW 0x1234
        POPW
        RET
end
load loop
select loop
apdu 8001000002
"""


def test_a_state_is_the_same_whatever_was_asked_before():
    play = Play(LOOP.encode())
    statement = next(it for it in play.statements() if it.turns)
    fresh = Play(LOOP.encode())
    whole = next(it for it in fresh.statements() if it.turns)
    assert len(statement.turns) > 1200

    def seen(it, number):
        state = it.before(number)
        frame = state.frames[-1]
        return (bytes(frame.static), bytes(frame.dynamic[:frame.dt - 0x8000]), frame.place, frame.dt, [call.target for call in frame.calls],
                [(item.start, item.end) for item in frame.items], bytes(state.public))

    wanted = [seen(whole, number) for number in range(1, len(whole.turns) + 1)]
    order = [(number * 733) % len(wanted) for number in range(len(wanted))]
    assert [seen(statement, number + 1) for number in order] == [wanted[number] for number in order]
    assert [statement.level(number + 1) for number in range(len(wanted))] == [(1, len(it[4])) for it in wanted]
    play.close()
    fresh.close()


def test_a_long_loop_is_left_by_a_step_out_and_gone_back_through(client, tmp_path):
    path = tmp_path / "loop.draft"
    path.write_text(LOOP, encoding="utf-8")
    line = line_of("PUSHW", LOOP)
    client.start(path, lines=[{"line": line, "condition": "i == 150"}])
    assert (client.value("i"), client.frames()[0][0]) == ("0096 (150)", "push")
    client.move("stepOut")
    assert client.frames()[0] == ("loop", line_of("CMPW", LOOP))
    client.ask("setBreakpoints", source={"path": str(path)}, breakpoints=[{"line": line, "condition": "i == 20"}])
    client.move("reverseContinue")
    assert client.value("i") == "0014 (20)"
