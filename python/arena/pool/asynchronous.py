"""A pool for asyncio."""
import asyncio
import os
from typing import Self

from arena.places import Place
from arena.pool.pool import Pool
from arena.pool.task import Settings
from arena.replies import Outcome
from arena.requests import JobLike


class AsyncPool:
    """A `Pool` whose jobs are awaited. Any number of asyncio tasks may share it, and event loops too."""

    def __init__(self, path: str | os.PathLike[str] | Place, tenant: str, *, patience: float | None = 30.0,
                 settings: Settings = Settings()) -> None:
        self._pool = Pool(path, tenant, patience=patience, settings=settings)

    async def __aenter__(self) -> Self:
        return self

    async def __aexit__(self, *_: object) -> None:
        await self.close()

    async def run(self, job: JobLike, *, again: bool | None = None) -> Outcome:
        """As Pool.run. If the asyncio task is cancelled, a job that has begun goes on, and its outcome is dropped."""
        return await asyncio.wrap_future(self._pool.start(job, again=again))

    async def close(self) -> None:
        """As Pool.close."""
        await asyncio.to_thread(self._pool.close)
