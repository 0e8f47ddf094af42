"""Which queue, and whose jobs in it, the words of a command name."""
import os
from typing import TYPE_CHECKING

from arena.command.call import Call, WordsFault

if TYPE_CHECKING:
    from arena.queue.store import Store

MICROSECONDS = 1_000_000
"""How many there are in a second: the times of the queue are in them."""


def where_of(call: Call) -> str:
    """Where the queue is: a path or a URL. Raises WordsFault if none is said."""
    where = call.words.queue or os.environ.get("ARENA_QUEUE")
    if not where:
        raise WordsFault("no queue is named; give --queue FILE or URL, or set ARENA_QUEUE")
    return str(where)


def store_of(call: Call, *, make: bool = False) -> "Store":
    """The queue."""
    from arena.queue.store import Store
    return Store(where_of(call), getattr(call.words, "synchronous", None) or "full", make=make)


def tenant_of(call: Call) -> str | None:
    """The tenant whose jobs are meant; None for those of all."""
    return call.words.tenant or os.environ.get("ARENA_TENANT")
