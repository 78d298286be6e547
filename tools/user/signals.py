"""What ends a run from outside: Ctrl-C, and the signals of a system that shuts down or of a terminal that closes."""
import signal
import sys
from contextlib import contextmanager

ENDING = (signal.SIGTERM, signal.SIGHUP)


def heard():
    """From here on Ctrl-C and each ending signal is an exception, so that a run tidies up."""
    if signal.getsignal(signal.SIGINT) is signal.SIG_DFL:
        signal.signal(signal.SIGINT, signal.default_int_handler)
    for number in ENDING:
        signal.signal(number, lambda number, frame: sys.exit(128 + number))


def unheard():
    """From here on Ctrl-C ends the process without a word, unless it is ignored: there is nothing to tidy up."""
    if signal.getsignal(signal.SIGINT) is signal.default_int_handler:
        signal.signal(signal.SIGINT, signal.SIG_DFL)


@contextmanager
def undisturbed():
    """Signals wait until the block is through."""
    before = signal.pthread_sigmask(signal.SIG_BLOCK, {signal.SIGINT, *ENDING})
    try:
        yield
    finally:
        signal.pthread_sigmask(signal.SIG_SETMASK, before)
