#!/usr/bin/env python3
"""`melreader` with a planted fault, for trials of tools/mel/conform.py: the status 6985 is answered as 6986."""

import pathlib
import subprocess
import sys

sys.path.insert(0, str(pathlib.Path(__file__).resolve().parent.parent / "mel"))

from card import framed, is_answered, program_path  # noqa: E402


def main():
    given, taken = sys.stdin.buffer, sys.stdout.buffer
    with subprocess.Popen([program_path("melreader"), *sys.argv[1:]], stdin=subprocess.PIPE, stdout=subprocess.PIPE) as reader:
        while len(size := given.read(2)) == 2:
            content = given.read(int.from_bytes(size, "big"))
            reader.stdin.write(framed(content))
            reader.stdin.flush()
            if is_answered(content):
                answer = reader.stdout.read(int.from_bytes(reader.stdout.read(2), "big"))
                taken.write(framed(b"\x69\x86" if answer == b"\x69\x85" else answer))
                taken.flush()
        reader.stdin.close()


main()
