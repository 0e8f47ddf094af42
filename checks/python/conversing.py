"""What the checks of strange conversations share: exceptions that must come, signals, and how all of a file are run."""
import asyncio
import contextlib
import gc
import os
import signal
import sys
import threading
import time
import warnings
from collections.abc import Awaitable, Callable, Sequence

SOON, LATER, PATIENCE = 0.15, 0.5, 120
COMPLETE = '{{"job":{0},"status":"complete","value":{0}00}}'


class Alarm(Exception):
    """What the handler of a signal raises, as a time limit of a script does."""


def raises(kind, call, *words):
    """The exception of just this kind, which a call must raise."""
    try:
        found = call(*words)
    except Exception as fault:
        assert type(fault) is kind, repr(fault)
        return fault
    raise AssertionError(f"{call} returned {found}")


@contextlib.contextmanager
def alarm(kind=Alarm, after=0.0):
    """Raises an exception from a signal's handler: after some seconds, or when the server of a check gives the signal."""
    def handler(*_):
        raise kind("time is up")
    before = signal.signal(signal.SIGALRM, handler)
    signal.setitimer(signal.ITIMER_REAL, after)
    try:
        yield
    finally:
        signal.setitimer(signal.ITIMER_REAL, 0)
        signal.signal(signal.SIGALRM, before)


class Late:
    """A server that answers polls of jobs 1, 2, .., the first ones only when it may. With `interrupts` it interrupts this
    process once it has got them."""

    def __init__(self, late=1, interrupts=True):
        self.late, self.interrupts, self.asked, self.may = late, interrupts, threading.Event(), threading.Event()

    def __call__(self, session):
        session.hello()
        for _ in range(self.late):
            session.next()
        self.asked.set()
        if self.late > 1:
            session.answer(COMPLETE.format(1))
        if self.interrupts:
            time.sleep(LATER)  # until the client waits; where it is still sending, it would close the connection
            os.kill(os.getpid(), signal.SIGALRM)
        self.may.wait(PATIENCE)
        session.answer(*(COMPLETE.format(number) for number in range(2 if self.late > 1 else 1, self.late + 1)))
        number = self.late
        while session.next():
            number += 1
            session.answer(COMPLETE.format(number))


async def raises_in(kind, call):
    """The exception of just this kind, which an awaited call must raise."""
    try:
        found = await call
    except Exception as fault:
        assert type(fault) is kind, repr(fault)
        return fault
    raise AssertionError(f"returned {found}")


def depth(traceback):
    """How many frames a traceback has."""
    count = 0
    while traceback is not None:
        count, traceback = count + 1, traceback.tb_next
    return count


def run_checks(what: str, checks: Sequence[Callable[[], None]], awaited: Sequence[Callable[[], Awaitable[None]]] = ()) -> None:
    """Runs the checks, or those that the command names, and prints how many there are. Nothing may be left open."""
    warnings.simplefilter("error", ResourceWarning)
    said = []
    sys.unraisablehook = lambda it: said.append(str(it.exc_value))
    for check in checks:
        if len(sys.argv) < 2 or check.__name__ in sys.argv:
            check()
    for check in awaited:
        if len(sys.argv) < 2 or check.__name__ in sys.argv:
            asyncio.run(check())
    gc.collect()
    assert not said, said
    print(f"{len(checks) + len(awaited)} checks of {what} passed")
