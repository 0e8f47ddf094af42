"""Clients, jobs and traces of arena-server.

    import arena

    with arena.Client("/tmp/arena.sock", "acme") as client:
        print(client.execute({"args": [7, 0], "fuel": 10, "procs": [[["ret", 0]]]}))

`arena.Client` is for one thread, `arena.aio.Client` for asyncio. `arena.trace` reads the dumps that the server writes,
and `python3 -m arena` is the command. docs/CLIENT.md and docs/TRACE.md show them at work.
"""
from importlib import import_module
from typing import TYPE_CHECKING

from arena.version import VERSION as __version__

if TYPE_CHECKING:
    from arena.client import Client, Reply
    from arena.pipeline import Pipeline
    from arena.prepared import Prepared
    from arena.replies import (
        ArenaError, BadJson, BadProgram, BadRequest, Busy, Canceled, Cells, Complete, ConnectionLimit, ConnectionLost, Fault,
        FaultCode, HistoryFull, InUse, JobLimit, Limits, LineTooLong, LostJob, NoMemory, NoTenant, Outcome, Refused, Running,
        Status, StrangeReply, TaskLimit, TimedOut, UnknownJob, UnknownTenant)

__all__ = [
    "ArenaError", "BadJson", "BadProgram", "BadRequest", "Busy", "Canceled", "Cells", "Client", "Complete",
    "ConnectionLimit", "ConnectionLost", "Fault", "FaultCode", "HistoryFull", "InUse", "JobLimit", "Limits",
    "LineTooLong", "LostJob", "NoMemory", "NoTenant", "Outcome", "Pipeline", "Prepared", "Refused", "Reply", "Running",
    "Status", "StrangeReply", "TaskLimit", "TimedOut", "UnknownJob", "UnknownTenant"]

_MODULES = {"Client": "arena.client", "Pipeline": "arena.pipeline", "Reply": "arena.client", "Prepared": "arena.prepared"}
"""Where the names are that are not in `arena.replies`."""


def __getattr__(name: str) -> object:
    """What the package has, loaded when it is asked for: the command needs little of it for most of what it does."""
    if name not in __all__:
        raise AttributeError(f"module {__name__!r} has no attribute {name!r}")
    return getattr(import_module(_MODULES.get(name, "arena.replies")), name)


def __dir__() -> list[str]:
    """What the package has."""
    return [*globals(), *__all__]
