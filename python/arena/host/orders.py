"""The orders that a host takes through its run folder: to stop, and to rotate."""
import contextlib
import os
import time
from collections.abc import Callable
from dataclasses import dataclass

from arena.host.folder import RunFolder
from arena.host.reading import StatusFault, read_status

POLL_SECONDS = 0.05
"""How long is waited between two looks at the folder, in seconds."""


class NoHost(Exception):
    """No host runs in the folder."""


class NotYet(Exception):
    """An order was not carried out in time. It stands, unless the text says otherwise."""


@dataclass(frozen=True, slots=True)
class Stopped:
    """A host has ended, so many seconds after the order; `another` says whether the next one runs there already."""

    seconds: float
    another: bool


@dataclass(frozen=True, slots=True)
class Rotated:
    """New terms serve, so many seconds after the order: their numbers, by the names of their tenants."""

    seconds: float
    terms: dict[str, int]


def stop(folder: RunFolder, wait: float) -> Stopped:
    """Removes the socket, and BLOCKS until the host has given its lock back, `wait` seconds at most. Raises NoHost,
    NotYet, OSError."""
    _must_run(folder)
    first, start = _began(folder), time.monotonic()
    with contextlib.suppress(FileNotFoundError):  # it stops already, or has not made its socket yet
        os.unlink(folder.socket)

    def another() -> bool:
        """Whether a host took the folder that began at another time; nobody can tell, if the first one said nothing."""
        return first is not None and _began(folder) not in (None, first)

    if not _comes(lambda: not folder.is_held() or another(), wait):
        raise NotYet(f"{folder.path}: the host was ordered to stop and still runs after {wait:g} s; it may wait for "
                     f"jobs or files, so look again by `arena status {folder.path}`")
    return Stopped(time.monotonic() - start, another())


def rotate(folder: RunFolder, wait: float, tenant: str | None = None) -> Rotated:
    """Makes the file that asks for the next term of a tenant, or of each one, and BLOCKS until terms serve that are newer than
    those that served before, `wait` seconds at most. Raises NoHost, NotYet, StatusFault, OSError."""
    _must_run(folder)
    order, before, start = folder.rotate(tenant), _serving(folder), time.monotonic()
    if tenant is not None and tenant not in before:
        raise NotYet(f"{folder.path}: no term of {tenant} serves, so none was asked for; a tenant that is new in the "
                     "configuration is served after an order for all tenants")
    wanted = [tenant] if tenant is not None else list(before)
    with contextlib.suppress(FileExistsError):  # somebody else's order, which the host has not taken yet
        os.close(os.open(order, os.O_WRONLY | os.O_CREAT | os.O_EXCL | os.O_CLOEXEC, 0o600))

    def newer() -> bool:
        """Whether the order was taken, and each tenant that is still served is served by a newer term. A host that ends
        serves nobody any more, which is no newer term; it has lost its socket."""
        if not folder.is_held():
            raise NoHost(f"{folder.path}: the host ended before a new term served")
        serving, goes_on = _serving(folder), os.path.exists(folder.socket)
        are_newer = all(serving[it] > before[it] if it in serving else goes_on for it in wanted)
        return are_newer and not os.path.exists(order)

    if not _comes(newer, wait):
        raise NotYet(_why_not(folder, order, wait))
    return Rotated(time.monotonic() - start, {it: number for it, number in _serving(folder).items() if tenant in (None, it)})


def _why_not(folder: RunFolder, order: str, wait: float) -> str:
    if os.path.exists(order):
        return f"{order}: the host has not taken the order within {wait:g} s; remove the file to take the order back"
    return (f"{folder.path}: the host took the order, and older terms still serve after {wait:g} s; its standard error says "
            "why, most often a configuration that it can't open, which `arena lint` looks at")


def _must_run(folder: RunFolder) -> None:
    if not folder.is_held():
        there = "" if os.path.isdir(folder.path) else "; there is no such folder"
        raise NoHost(f"{folder.path}: no arena-host runs here{there}")


def _began(folder: RunFolder) -> int | None:
    """When the host of the folder began; None if its status can't be used."""
    try:
        return read_status(folder).status.began
    except StatusFault:
        return None


def _serving(folder: RunFolder) -> dict[str, int]:
    """The number of the term that serves, of each tenant that has one."""
    return {name: term.number for name, term in read_status(folder).status.serving.items()}


def _comes(is_so: Callable[[], bool], wait: float) -> bool:
    """Whether something becomes so within so many seconds."""
    deadline = time.monotonic() + wait
    while not is_so():
        if time.monotonic() >= deadline:
            return False
        time.sleep(POLL_SECONDS)
    return True
