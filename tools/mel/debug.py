#!/usr/bin/env python3
"""Debugs a draft in an editor: forward and back through a play, by the Debug Adapter Protocol on standard input and output.

    tools/mel/debug.py

An editor starts it: `docs/DEBUGGING.md` has the settings. It plays the draft that the request `launch` names as `program` by `meldesk steps`,
and stops at the first turn of its `line`, if there is one, else at the first breakpoint.

It needs Python 3.9, and `meldesk` and `melcard`, built by tools/build or by `rt ci`. It ends with 0 when its client leaves,
and with 1 and a line on standard error if the input is no messages of the protocol.
"""

import argparse
import os
import sys
from pathlib import Path

# The modules lie beside the file that a link names.
sys.path.insert(0, str(Path(__file__).resolve().parent))

from debugger.adapter import Adapter  # noqa: E402
from debugger.wire import Wire  # noqa: E402


def served() -> int:
    """Serves one client, and returns the status to end with."""
    wire = Wire(sys.stdin.buffer, sys.stdout.buffer)
    adapter = Adapter(wire)
    try:
        adapter.serve()
    except BrokenPipeError:
        # The client is gone.
        adapter.close()
        return 0
    if wire.why is not None and not adapter.has_left:
        print(f"debug: {wire.why}", file=sys.stderr)
        return 1
    return 0


def main() -> None:
    argparse.ArgumentParser(description="Debugs a draft by the Debug Adapter Protocol, on standard input and output.").parse_args()
    status = 1
    try:
        status = served()
    except Exception as why:
        print(f"debug: {type(why).__name__}: {why}", file=sys.stderr)
    try:
        sys.stdout.flush()
        sys.stderr.flush()
    except OSError:
        status = 1
    # The thread that reads the input may wait for a client that is gone, so the program ends without it.
    os._exit(status)


if __name__ == "__main__":
    main()
