"""Runs commands under tools/mel/watch.py with and without a terminal, and looks at what it writes there, how it ends, and which signals it passes on.

It needs pytest, and mellab, built by tools/build or by `rt ci`.
"""

import fcntl
import os
import pathlib
import pty
import re
import signal
import struct
import subprocess
import sys
import termios
import threading
import time

import pytest
from card import program_path

WATCH = str(pathlib.Path(__file__).resolve().parent.parent / "mel" / "watch.py")
LINE = re.compile(r"\d+ s, processor \d+ s, memory \d+ MiB, written \d+ bytes?")
# Seven hundred thousand keys and more: some seconds of `mellab prove`.
MANY = """format
power
app counter A000000001
INCN SB[0],2
EXIT
end
load counter 2 0
#@ app counter
#@ allow left 4000000000
#@ on turn *INCN* spend left 1
"""


class Terminal:
    """A terminal of some columns, on which a command runs; `output` says whether its standard output is there, too."""

    def __init__(self, words, output=False, columns=80, **streams):
        self.master, slave = pty.openpty()
        fcntl.ioctl(slave, termios.TIOCSWINSZ, struct.pack("HHHH", 24, columns, 0, 0))
        self.text = b""
        if output:
            streams["stdout"] = slave

        def take():
            os.setsid()
            fcntl.ioctl(slave, termios.TIOCSCTTY, 0)

        self.run = subprocess.Popen([sys.executable, WATCH, *words], stderr=slave, preexec_fn=take, **{"stdin": slave, **streams})
        os.close(slave)
        self.reader = threading.Thread(target=self.read)
        self.reader.start()

    def read(self):
        """Reads what is written on it, until nobody holds it any more."""
        try:
            while piece := os.read(self.master, 4096):
                self.text += piece
        except OSError:
            pass

    def has(self, found, seconds=10):
        """Waits until a text is on it."""
        end = time.monotonic() + seconds
        while found not in self.text:
            assert time.monotonic() < end, self.text
            time.sleep(0.02)

    def end(self):
        """Waits for the end, and returns the status and the text."""
        status = self.run.wait(timeout=60)
        self.reader.join(timeout=60)
        os.close(self.master)
        return status, self.text.decode()


def shown(text):
    """What is seen on a terminal in the end, line by line, without blanks at the ends."""
    rows = []
    for row in text.replace("\r\n", "\n").split("\n"):
        cells = []
        for at, piece in enumerate(row.split("\r")):
            cells = [*piece, *cells[len(piece):]] if at else [*piece]
        rows.append("".join(cells).rstrip())
    return rows


def test_without_a_terminal_it_is_the_command():
    done = subprocess.run([WATCH, "sh", "-c", "cat; echo other >&2; sleep 1.2; exit 7"], input=b"in\n", capture_output=True, check=False)
    assert (done.returncode, done.stdout, done.stderr) == (7, b"in\n", b"other\n")
    done = subprocess.run([WATCH, "sh", "-c", "kill -TERM $$"], capture_output=True, check=False)
    assert (done.returncode, done.stdout, done.stderr) == (-signal.SIGTERM, b"", b"")


def test_a_line_is_rewritten_each_second_and_cleared():
    terminal = Terminal(["sh", "-c", "sleep 4; echo done; exit 3"], stdout=subprocess.PIPE)
    out, _ = terminal.run.communicate(timeout=60)
    status, text = terminal.end()
    assert (status, out) == (3, b"done\n")
    assert len({it.split(",")[0] for it in LINE.findall(text)}) >= 2
    assert "\n" not in text and shown(text) == [""]


def test_a_short_command_has_no_line():
    assert Terminal(["sh", "-c", "exit 5"], stdout=subprocess.DEVNULL).end() == (5, "")


def test_the_output_on_the_same_terminal_stays_whole():
    terminal = Terminal(["sh", "-c", "echo first; sleep 1.3; printf 'a longer line than that of the script, which is blank before it is written, and open'; "
                                     "sleep 1.3; echo; echo last; sleep 1.3"], output=True, columns=100)
    status, text = terminal.end()
    assert status == 0 and len(LINE.findall(text)) >= 2
    assert shown(text) == ["first", "a longer line than that of the script, which is blank before it is written, and open", "last", ""]


def test_the_line_fits_the_terminal():
    _, text = Terminal(["sleep", "3"], columns=20).end()
    assert re.match(r"\r[123] s, processor 0 s,\r", text) and shown(text) == [""]


def test_the_input_is_the_command_s_own():
    terminal = Terminal(["cat"], stdin=subprocess.PIPE, stdout=subprocess.PIPE)
    assert terminal.run.communicate(b"some\n", timeout=60)[0] == b"some\n"
    assert terminal.end() == (0, "")


def test_ctrl_c_ends_both():
    terminal = Terminal(["sh", "-c", "trap 'exit 9' INT; echo ready; while :; do sleep 0.1; done"], output=True)
    terminal.has(b"ready")
    os.write(terminal.master, b"\x03")
    assert terminal.end()[0] == 9
    terminal = Terminal(["sh", "-c", "echo ready; sleep 60"], output=True)
    terminal.has(b"ready")
    os.write(terminal.master, b"\x03")
    assert terminal.end()[0] == -signal.SIGINT


@pytest.mark.parametrize("sent", [signal.SIGINT, signal.SIGTERM, signal.SIGHUP])
def test_signals_are_passed_on(sent):
    terminal = Terminal(["sh", "-c", f"trap 'echo got {sent.name[3:]}; exit 6' {sent.name[3:]}; echo ready; while :; do sleep 0.1; done"], output=True)
    terminal.has(b"ready")
    terminal.run.send_signal(sent)
    status, text = terminal.end()
    assert status == 6 and f"got {sent.name[3:]}" in text
    terminal = Terminal(["sh", "-c", "echo ready; exec sleep 60"], output=True)
    terminal.has(b"ready")
    terminal.run.send_signal(sent)
    assert terminal.end()[0] == -sent


def test_a_signal_of_the_command_is_how_it_ends():
    assert Terminal(["sh", "-c", "kill -SEGV $$"], stdout=subprocess.DEVNULL).end()[0] == -signal.SIGSEGV


def test_what_cannot_be_run():
    done = subprocess.run([WATCH, "/no/such/program"], capture_output=True, check=False)
    assert done.returncode == 127 and b"/no/such/program" in done.stderr
    status, text = Terminal(["/no/such/program"]).end()
    assert status == 127 and "/no/such/program" in text
    assert subprocess.run([WATCH], capture_output=True, check=False).returncode == 2


def test_a_long_search_shows_what_it_takes():
    terminal = Terminal([program_path("mellab"), "prove"], stdin=subprocess.PIPE, stdout=subprocess.PIPE)
    out, _ = terminal.run.communicate(MANY.encode(), timeout=100)
    status, text = terminal.end()
    assert (status, out) == (1, b"not proved keys 1000000\n")
    lines = LINE.findall(text)
    assert lines and max(int(re.search(r"memory (\d+)", it)[1]) for it in lines) > 50, text
    assert shown(text) == [""]
