"""Whether a host can be reached, which all tenants that use it share."""
import logging

from arena.client import Client
from arena.places import Place
from arena.pool.task import Settings
from arena.replies import ArenaError

LOG = logging.getLogger("arena.pool")

FIRST_PAUSE, LONGEST_PAUSE = 0.05, 1.0
"""How many seconds pass before a host is tried again that could not be reached."""


class Host:
    """A host at a place. It has to be tried, by `attend`, before jobs are taken for it: a host that is down must not be given
    one after another."""

    def __init__(self, place: Place, settings: Settings) -> None:
        self.place, self.settings = place, settings
        self.connections = 0
        self.is_down = True
        self.rests_until = 0.0
        self._pause = FIRST_PAUSE
        self._is_told = False

    def is_ready(self, clock: float) -> bool:
        """Whether jobs may be taken for it."""
        return not self.is_down and clock >= self.rests_until

    def attend(self, clock: float) -> None:
        """Tries it again when that is due."""
        if self.is_down and clock >= self.rests_until:
            try:
                Client(self.place, timeout=self.settings.connecting).close()
            except ArenaError as fault:
                self.was_lost(str(fault), clock)
            else:
                self.is_down = False

    def was_lost(self, why: str, clock: float) -> None:
        """Notes that it could not be reached, or ended a connection."""
        if not self._is_told:
            LOG.warning("%s", why)
        self.is_down, self._is_told = True, True
        self.rests_until = clock + self._pause
        self._pause = min(LONGEST_PAUSE, 2 * self._pause)

    def went_well(self) -> None:
        """Notes that it has answered."""
        if self._is_told:
            LOG.warning("%s: answers again", self.place.name)
        self._pause, self._is_told = FIRST_PAUSE, False
