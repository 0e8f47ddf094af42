"""Jobs of a tenant at one host, run to their outcomes over few connections, whatever becomes of these.

    with Pool("/run/arena/socket", "acme") as pool:
        match pool.run(job):
            case Complete(value): ...

`run` raises `TryAgain` or `Final`. docs/POOL.md shows it in other engines of jobs. """
from importlib import import_module
from typing import TYPE_CHECKING

if TYPE_CHECKING:
    from arena.pool.asynchronous import AsyncPool
    from arena.pool.faults import Final, TryAgain
    from arena.pool.pool import Pool
    from arena.pool.task import Settings

__all__ = ["AsyncPool", "Final", "Pool", "Settings", "TryAgain"]

_MODULES = {"AsyncPool": "asynchronous", "Final": "faults", "Pool": "pool", "Settings": "task", "TryAgain": "faults"}


def __getattr__(name: str) -> object:
    """What the package has, loaded when it is asked for."""
    if name not in _MODULES:
        raise AttributeError(f"module {__name__!r} has no attribute {name!r}")
    return getattr(import_module(f"arena.pool.{_MODULES[name]}"), name)
