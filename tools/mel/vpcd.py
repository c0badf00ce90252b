#!/usr/bin/env python3
"""Joins `melreader` to vpcd, the virtual smart card reader of the vsmartcard project (Debian: pcscd, vsmartcard-vpcd).

    tools/mel/vpcd.py [DECK] [--record FILE]

Every PC/SC program then finds a card in the reader `Virtual PCD`. It says on standard error when it waits for the driver and when the card
is in. It runs until it is ended by a signal or `melreader` ends, and ends `melreader` with itself. With --record the session is kept as the
deck that it is, with the card's answers as expectations: `mellab expect < FILE` holds.

If the card gives no answer, the connection is closed and opened again: for the host the card was pulled and put back.

It needs Python 3.9, the package `card` beside it, and `melreader`.
"""

import argparse
import signal
import socket
import sys
import time

from card import ATR, POWER_OFF, Reader, ReaderEnded, framed, is_answered

# How long to wait for a driver that does not listen yet, in seconds.
RETRY = 0.2
# The driver sends the length and the content of a frame apart, and holds the second back until the first is acknowledged, which Linux puts
# off by 40 milliseconds if it is not asked to do it at once. It takes the wish back by itself, so it is asked before each read.
QUICK = getattr(socket, "TCP_QUICKACK", None)


def connected(address, say):
    """A connection to the driver, as soon as it listens."""
    has_said = False
    while True:
        try:
            driver = socket.create_connection(address)
            driver.setsockopt(socket.IPPROTO_TCP, socket.TCP_NODELAY, 1)
            return driver
        except ConnectionRefusedError:
            if not has_said:
                say(f"waiting for vpcd at {address[0]}:{address[1]}, which pcscd starts")
                has_said = True
            time.sleep(RETRY)


def received(driver, count):
    """`count` bytes of the driver, or None if it has left."""
    content = b""
    while len(content) < count:
        try:
            if QUICK is not None:
                driver.setsockopt(socket.IPPROTO_TCP, QUICK, 1)
            more = driver.recv(count - len(content))
        except ConnectionResetError:
            return None
        if not more:
            return None
        content += more
    return content


def frame_of(driver):
    """The content of the driver's next frame, or None if it has left."""
    size = received(driver, 2)
    return None if size is None else received(driver, int.from_bytes(size, "big"))


def pass_frames(driver, reader):
    """Passes frames both ways, until the driver leaves or the card gives no answer. Returns whether the driver left."""
    while (content := frame_of(driver)) is not None:
        reader.send(content)
        if is_answered(content):
            answer = reader.receive()
            if not answer:
                return False
            try:
                driver.sendall(framed(answer))
            except (BrokenPipeError, ConnectionResetError):
                return True
    return True


def serve(reader, address, pause, say):
    """Keeps the card in the reader, for good."""
    reader.ask(ATR)
    while True:
        with connected(address, say) as driver:
            say("the card is in")
            say("vpcd has left" if pass_frames(driver, reader) else f"the card gave no answer: it is out for {pause:g} seconds")
        # A card that was pulled has no power.
        reader.send(POWER_OFF)
        time.sleep(pause)


def main():
    words = argparse.ArgumentParser(description="Joins melreader to vpcd, a driver of pcscd.")
    words.add_argument("deck", nargs="?", help="the deck or draft that is played on the card first; none: a blank card")
    words.add_argument("--record", metavar="FILE", help="keep the session here as a deck, with the answers as expectations")
    words.add_argument("--host", default="127.0.0.1", help="where vpcd listens (127.0.0.1)")
    words.add_argument("--port", type=int, default=35963, help="where vpcd listens (35963)")
    words.add_argument("--pause", type=float, default=1.0, help="seconds for which a pulled card is away (1)")
    words.add_argument("--program", help="melreader")
    words.add_argument("--quiet", action="store_true", help="say nothing of waiting and of the card")
    given = words.parse_args()

    def say(what):
        if not given.quiet:
            print(f"vpcd.py: {what}", file=sys.stderr, flush=True)

    for number in (signal.SIGINT, signal.SIGTERM, signal.SIGHUP):
        signal.signal(number, lambda *_: sys.exit(0))
    try:
        reader = Reader(given.deck, given.program, given.record)
    except OSError as error:
        print(f"vpcd.py: {error.filename}: {error.strerror}" if error.filename else f"vpcd.py: {error}", file=sys.stderr)
        sys.exit(2)
    with reader:
        serve(reader, (given.host, given.port), given.pause, say)


if __name__ == "__main__":
    try:
        main()
    except ReaderEnded as ended:
        sys.exit(f"vpcd.py: {ended}")
