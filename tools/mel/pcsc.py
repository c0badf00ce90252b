"""A PC/SC reader with a card for trials: pcscd with the driver vpcd, joined to `melreader` by tools/mel/vpcd.py.

It needs Debian's packages pcscd, vsmartcard-vpcd and python3-pyscard, which is a package of /usr/bin/python3 alone, to be run as root, and
no other pcscd that runs: `missing()` says what is not there. All that is started here is ended by its process id.
"""

import contextlib
import os
import pathlib
import shutil
import socket
import subprocess
import sys
import time

TOOLS = pathlib.Path(__file__).resolve().parent
DRIVER = pathlib.Path("/usr/lib/pcsc/drivers/serial/libifdvpcd.so")
DAEMON_SOCKET = "/run/pcscd/pcscd.comm"
PATIENCE = 30.0  # seconds until a host that waits gives up


def missing(programs=()):
    """What is not there, or None; `programs` are pairs of a further program that is wanted and its package."""
    for program, package in (("pcscd", "pcscd"), *programs):
        if shutil.which(program) is None:
            return f"the package {package} is missing"
    if not DRIVER.exists():
        return "the package vsmartcard-vpcd is missing"
    try:
        import smartcard  # noqa: F401
    except ImportError:
        return f"{sys.executable} has no package smartcard: Debian's python3-pyscard is for /usr/bin/python3, others take `pip install pyscard`"
    if os.geteuid() != 0:
        return "pcscd is to be run as root"
    with socket.socket(socket.AF_UNIX) as other:
        if other.connect_ex(DAEMON_SOCKET) == 0:
            return "another pcscd runs"
    return None


@contextlib.contextmanager
def running(words, **options):
    """A program that runs, and is ended by its process id."""
    process = subprocess.Popen(words, **options)
    try:
        yield process
    finally:
        process.terminate()
        process.wait()


def until(what, is_there):
    """Waits until something is there."""
    end = time.monotonic() + PATIENCE
    while not is_there():
        if time.monotonic() > end:
            raise TimeoutError(what)
        time.sleep(0.05)


@contextlib.contextmanager
def daemon(log):
    """pcscd, which listens."""
    help_text = subprocess.run(["pcscd", "--help"], capture_output=True, text=True).stdout
    polkit = ["--disable-polkit"] if "--disable-polkit" in help_text else []
    with running(["pcscd", "--foreground", *polkit], stdout=log, stderr=log) as process:

        def listens():
            if process.poll() is not None:
                raise RuntimeError(f"pcscd ended with {process.returncode}")
            with socket.socket(socket.AF_UNIX) as client:
                return client.connect_ex(DAEMON_SOCKET) == 0

        until("pcscd", listens)
        yield


@contextlib.contextmanager
def card(path=None, program=None):
    """A card in the reader, on which the deck of this path was played; none: a blank card. `program` is another one than melreader."""
    with Watch() as watch:
        words = ["--quiet", *([] if program is None else ["--program", program]), *([] if path is None else [path])]
        with running([sys.executable, str(TOOLS / "vpcd.py"), *words]) as bridge:

            def is_there():
                if bridge.poll() is not None:
                    raise RuntimeError(f"vpcd.py ended with {bridge.returncode}")
                return watch.has_card()

            until("the card", is_there)
            yield watch
        until("the card's removal", lambda: not watch.has_card())


class Watch:
    """The state of the reader: whether it has a card, and how often one came or went."""

    def __init__(self):
        from smartcard import scard

        self.scard = scard
        self.context = scard.SCardEstablishContext(scard.SCARD_SCOPE_USER)[1]
        readers = scard.SCardListReaders(self.context, [])[1]
        self.name = next(name for name in readers if name.startswith("Virtual PCD"))

    def state(self, known=None, seconds=0):
        """The state; with a known one, as soon as it is another."""
        before = self.scard.SCARD_STATE_UNAWARE if known is None else known
        result, states = self.scard.SCardGetStatusChange(self.context, int(seconds * 1000), [(self.name, before)])
        if result not in (self.scard.SCARD_S_SUCCESS, self.scard.SCARD_E_TIMEOUT):
            raise RuntimeError(self.scard.SCardGetErrorMessage(result))
        return states[0][1]

    def has_card(self):
        """Whether a card is there and can be powered."""
        state = self.state()
        return bool(state & self.scard.SCARD_STATE_PRESENT) and not state & self.scard.SCARD_STATE_MUTE

    def events(self):
        """How often a card came or went."""
        return self.state() >> 16

    def __enter__(self):
        return self

    def __exit__(self, *_):
        self.scard.SCardReleaseContext(self.context)
