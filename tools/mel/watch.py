#!/usr/bin/env python3
"""Runs a command and shows, on a terminal, what it has taken so far: for the long searches of `mellab explore` and `mellab prove`.

    tools/mel/watch.py COMMAND [WORD ..]

The command has the streams of this script. If the standard error is a terminal, a line on it is written anew each second: the seconds since the
command began, its seconds of processor, its memory in MiB, and the bytes that it has written. It is blank again before the output of the command
goes to the same terminal, and at the end. A command of less than a second has no line. If the standard error is no terminal, nothing is
written, and this script becomes the command.

It ends as the command does, with its status or by its signal, and passes SIGINT, SIGTERM, SIGHUP and SIGQUIT on to it. If the command cannot be
run, the status is 127, and without a command it is 2.

It needs Python 3.9; on a system without /proc the line has the seconds alone. An output that is a terminal reaches the command as a pipe.
"""

import os
import resource
import signal
import subprocess
import sys
import threading
import time
from typing import BinaryIO, Dict, List, Optional

PASSED = (signal.SIGINT, signal.SIGTERM, signal.SIGHUP, signal.SIGQUIT)
WAITED = {*PASSED, signal.SIGCHLD}
PERIOD = 1.0
MIB = 1 << 20


def read_proc(pid: int, name: str) -> str:
    """A file that the system has of a process, or no text if there is none to be read."""
    try:
        with open(f"/proc/{pid}/{name}", encoding="utf-8", errors="replace") as opened:
            return opened.read()
    except OSError:
        return ""


def numbers_of(text: str) -> Dict[str, int]:
    """The lines `NAME: NUMBER ..` of such a file."""
    pairs = (line.split() for line in text.splitlines())
    return {it[0].rstrip(":"): int(it[1]) for it in pairs if len(it) > 1 and it[1].isdigit()}


def processor_seconds(pid: int) -> Optional[float]:
    """The processor time of a process, that of its own children which ended included."""
    fields = read_proc(pid, "stat").rpartition(")")[2].split()
    return sum(map(int, fields[11:15])) / os.sysconf("SC_CLK_TCK") if len(fields) > 15 else None


def taken(pid: int, seconds: float, written: Optional[int]) -> str:
    """What a process has taken, in a line. `written` is None if its output does not pass through this script."""
    parts = [f"{seconds:.0f} s"]
    processor = processor_seconds(pid)
    if processor is not None:
        parts.append(f"processor {processor:.0f} s")
    memory = numbers_of(read_proc(pid, "status")).get("VmRSS")
    if memory is not None:
        parts.append(f"memory {memory * 1024 / MIB:.0f} MiB")
    if written is None:
        written = numbers_of(read_proc(pid, "io")).get("wchar")
    if written is not None:
        parts.append(f"written {written} byte{'' if written == 1 else 's'}")
    return ", ".join(parts)


class Line:
    """The line on the standard error, and the output that goes to the same terminal."""

    def __init__(self) -> None:
        self.lock, self.length, self.written, self.is_at_begin = threading.Lock(), 0, 0, True

    def columns(self) -> int:
        """How many characters of it fit in a row."""
        try:
            return (os.get_terminal_size(sys.stderr.fileno()).columns or 80) - 1
        except OSError:
            return 79

    def put(self, text: str) -> None:
        """Writes a text over the last one, and leaves the cursor at its begin."""
        text = text[:self.columns()]
        try:
            os.write(sys.stderr.fileno(), f"\r{text.ljust(self.length)}\r".encode())
        except OSError:
            pass
        self.length = len(text)

    def show(self, text: str) -> None:
        """Shows a text, unless a line of the output is open there."""
        with self.lock:
            if self.is_at_begin:
                self.put(text)

    def clear(self) -> None:
        """Makes the line blank, if there is one."""
        if self.length:
            self.put("")

    def copy(self, output: BinaryIO) -> None:
        """Copies an output to the standard output, until one of them ends."""
        with output:
            while piece := os.read(output.fileno(), 65536):
                with self.lock:
                    self.clear()
                    self.written += len(piece)
                    self.is_at_begin = piece.endswith(b"\n")
                    try:
                        while piece:
                            piece = piece[os.write(sys.stdout.fileno(), piece):]
                    except OSError:
                        return


def wait(child: subprocess.Popen, line: Line, copied: bool) -> int:
    """Shows the line until the command has ended, passes signals on to it, and returns how it ended."""
    begin = time.monotonic()
    shown = begin
    while child.poll() is None:
        info = signal.sigtimedwait(WAITED, max(0.0, shown + PERIOD - time.monotonic()))
        # A key of the terminal sends its signal to the command, too.
        if info is not None and info.si_signo in PASSED and info.si_code <= 0:
            child.send_signal(info.si_signo)
        now = time.monotonic()
        if now >= shown + PERIOD and child.poll() is None:
            line.show(taken(child.pid, now - begin, line.written if copied else None))
            shown = now
    return child.returncode


def watched(words: List[str]) -> int:
    """Runs a command beside its line, and returns how it ended."""
    before = signal.pthread_sigmask(signal.SIG_BLOCK, WAITED)
    line, copied = Line(), sys.stdout is not None and sys.stdout.isatty()
    child = subprocess.Popen(words, stdout=subprocess.PIPE if copied else None,
                             preexec_fn=lambda: signal.pthread_sigmask(signal.SIG_SETMASK, before))
    copier = threading.Thread(target=line.copy, args=(child.stdout,)) if copied else None
    if copier is not None:
        copier.start()
    ended = wait(child, line, copied)
    if copier is not None:
        copier.join()
    line.clear()
    return ended


def end_as(ended: int) -> int:
    """The status of a command that exited; the same signal for one that a signal ended."""
    if ended < 0:
        resource.setrlimit(resource.RLIMIT_CORE, (0, 0))
        if -ended not in (signal.SIGKILL, signal.SIGSTOP):
            signal.signal(-ended, signal.SIG_DFL)
        signal.pthread_sigmask(signal.SIG_UNBLOCK, [-ended])
        os.kill(os.getpid(), -ended)
        return 128 - ended
    return ended


def main(words: List[str]) -> int:
    """Runs the command."""
    if not words or words[0].startswith("-"):
        print("usage: tools/mel/watch.py COMMAND [WORD ..]", file=sys.stderr)
        return 2
    try:
        if sys.stderr is not None and sys.stderr.isatty():
            return end_as(watched(words))
        signal.signal(signal.SIGPIPE, signal.SIG_DFL)
        signal.signal(signal.SIGXFSZ, signal.SIG_DFL)
        os.execvp(words[0], words)
    except OSError as error:
        if sys.stderr is not None:
            print(f"watch: {words[0]}: {error.strerror}", file=sys.stderr)
    return 127


if __name__ == "__main__":
    sys.exit(main(sys.argv[1:]))
