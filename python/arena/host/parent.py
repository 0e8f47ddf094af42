"""A parent of arena-host: the signals by which services are ended become the order to stop."""
import contextlib
import os
import select
import signal
import subprocess
from collections.abc import Iterator, Sequence

from arena.host.folder import RunFolder
from arena.host.orders import POLL_SECONDS

ENDINGS = (signal.SIGTERM, signal.SIGINT, signal.SIGHUP)
"""The signals that ask for the end, but for those that are ignored where this begins, as SIGHUP is below nohup."""


class Taken(Exception):
    """A host runs in the folder already."""


def run_host(program: str, words: Sequence[str], folder: RunFolder) -> int:
    """Runs arena-host with these words in a run folder, BLOCKS until it has ended, and returns its status, or 128 and the number
    of the signal that ended it. A signal of `ENDINGS` lets it stop in order, however soon it comes. Only the main thread may
    call it. Raises Taken, OSError."""
    if folder.is_held():
        raise Taken(f"{folder.path}: an arena-host runs here already")
    with _signals() as asked:
        # A group of its own: Ctrl-C reaches all processes of a terminal's group, and the host would end at once. Python ignores
        # SIGXFSZ, and so does the host then: a write beyond a limit of file sizes fails, as on a full disk, and ends nothing.
        host = subprocess.Popen([program, *words, "--run", folder.path], process_group=0, restore_signals=False)
        with _end_of(host) as ended:
            select.select([ended, asked], [], [])
            # A host that begins makes its socket after it has taken the folder, so one removal may come too early.
            while not select.select([ended], [], [], POLL_SECONDS)[0]:
                with contextlib.suppress(FileNotFoundError):
                    os.unlink(folder.socket)
        status = host.wait()
    return status if status >= 0 else 128 - status


@contextlib.contextmanager
def _signals() -> Iterator[int]:
    """A descriptor that can be read once one of the signals has come. They end nothing meanwhile."""
    read, write = os.pipe2(os.O_CLOEXEC | os.O_NONBLOCK)
    asking = [it for it in ENDINGS if signal.getsignal(it) != signal.SIG_IGN]
    handlers = {it: signal.signal(it, lambda *_: None) for it in asking}
    before = signal.set_wakeup_fd(write, warn_on_full_buffer=False)
    try:
        yield read
    finally:
        signal.set_wakeup_fd(before)
        for number, handler in handlers.items():
            signal.signal(number, handler)
        os.close(read)
        os.close(write)


@contextlib.contextmanager
def _end_of(process: subprocess.Popen[bytes]) -> Iterator[int]:
    """A descriptor that can be read once the process has ended."""
    ended = os.pidfd_open(process.pid)
    try:
        yield ended
    finally:
        os.close(ended)
