"""A host of a dispatcher, and its desks, one for each tenant."""
import os
import selectors
import socket
from collections.abc import Iterator
from dataclasses import dataclass

from arena.places import UnixPlace
from arena.pool.desk import Desk
from arena.pool.host import Host
from arena.pool.task import Result, Settings
from arena.queue.model import Claim


@dataclass(slots=True)
class Held:
    """A claimed job, whether its program is serial, and when it was claimed, by the monotonic clock."""

    claim: Claim
    is_serial: bool
    began: float


class Post:
    """A host at the path of its socket, or of its run folder. `is_mine` is whether this dispatcher has it; others stand by."""

    def __init__(self, path: str, settings: Settings, selector: selectors.BaseSelector) -> None:
        path = os.path.join(path, "socket") if os.path.isdir(path) else path
        self.name = f"{socket.gethostname()}:{os.path.abspath(path)}"
        self.host = Host(UnixPlace(path), settings)
        self.desks: dict[str, Desk[Held]] = {}
        self.is_mine = False
        self._settings, self._selector = settings, selector

    @property
    def new_desks(self) -> int:
        """For how many more tenants there are connections."""
        if not self.is_mine or self.host.is_down:
            return 0
        idle = sum(not it.lanes for it in self.desks.values())
        return max(0, self._settings.connections - self.host.connections - idle)

    def desk(self, tenant: str) -> Desk[Held]:
        """The desk of a tenant, which is made if it is new."""
        if tenant not in self.desks:
            self.desks[tenant] = Desk(self.host, tenant, self._selector)
        return self.desks[tenant]

    def room(self, tenant: str, clock: float) -> int:
        """How many jobs of a tenant it takes now."""
        if not self.is_mine or not self.host.is_ready(clock):
            return 0
        if tenant in self.desks:
            return self.desks[tenant].room(clock)
        return self._settings.window if self.new_desks else 0

    def attend(self, clock: float) -> None:
        """Does what is due, and forgets desks that nobody has used for a while."""
        if self.is_mine:
            self.host.attend(clock)
        for tenant, desk in list(self.desks.items()):
            desk.attend(clock)
            is_idle = not desk.lanes and not desk.load and clock > max(desk.rests_until, desk.used + self._settings.idle)
            if is_idle and not desk.results:
                del self.desks[tenant]

    def results(self) -> Iterator[Result[Held]]:
        """What has become of jobs."""
        for desk in self.desks.values():
            yield from desk.results
            desk.results = []

    def next_at(self, clock: float) -> float | None:
        """When to call `attend` at the latest."""
        times = [self.host.rests_until] if self.host.is_down and self.is_mine else []
        times += [it for it in (desk.next_at(clock) for desk in self.desks.values()) if it is not None]
        return min(times, default=None)

    def drop(self) -> None:
        """Ends all connections, and forgets what was under way."""
        for desk in self.desks.values():
            desk.close()
        self.desks.clear()
        self.is_mine = False
