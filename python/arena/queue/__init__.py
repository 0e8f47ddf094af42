"""A durable queue before hosts, in a file: jobs are kept until they have their outcome, and for a while after it.

    with Store("/var/lib/arena/queue.sqlite") as queue:
        (number, _), = queue.submit([NewJob("acme", Program.of(PROCS), args=(10, 0), key="order-17")])
        print(queue.wait([number])[0].value)

`Dispatcher` runs them. A job may be run more than once, if a host or a dispatcher dies; a serial job that completes has the
same value each time, and of any other one the first outcome that is recorded stands. docs/QUEUE.md has the whole. """
from importlib import import_module
from typing import TYPE_CHECKING

if TYPE_CHECKING:
    from arena.queue.dispatcher import Dispatcher
    from arena.queue.model import Job, KeyTaken, NewJob, QueueError, State, Submitted, UnknownQueueJob
    from arena.queue.programs import NoProgram, Parts, Program
    from arena.queue.store import Keeping, Store

__all__ = ["Dispatcher", "Job", "Keeping", "KeyTaken", "NewJob", "NoProgram", "Parts", "Program", "QueueError", "State", "Store",
           "Submitted", "UnknownQueueJob"]

_MODULES = {"Dispatcher": "dispatcher", "NoProgram": "programs", "Parts": "programs", "Program": "programs", "Keeping": "store",
            "Store": "store"}
"""Where the names are that are not in `arena.queue.model`."""


def __getattr__(name: str) -> object:
    """What the package has, loaded when it is asked for."""
    if name not in __all__:
        raise AttributeError(f"module {__name__!r} has no attribute {name!r}")
    return getattr(import_module(f"arena.queue.{_MODULES.get(name, 'model')}"), name)
