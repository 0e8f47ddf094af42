"""Where the entries of a history lie on an axis. A dump has no clock, so there are three axes to choose from."""
import enum

from arena.trace.model import Happening


class Axis(enum.Enum):
    """What is measured along the axis."""

    ENTRIES = "entries"
    INSTRUCTIONS = "instructions"
    CLOCK = "clock"

    @property
    def title(self) -> str:
        """What stands at the axis, with the unit."""
        return _TITLES[self]


_TITLES = {
    Axis.ENTRIES: "entries of the history",
    Axis.INSTRUCTIONS: "instructions, of all slots one after another",
    Axis.CLOCK: "instructions, as if each slot took time for its own alone",
}


class Meter:
    """Takes what happened, entry by entry; `begin` and `end` are the place of the last one.

    On the axis `entries` each entry is 1 long. On `instructions` an entry is as long as what it executed. On `clock`
    as well, but what a slot executes begins when the slot's last entry ended, so slots run side by side; entries end
    in their order. """

    def __init__(self, axis: Axis, slots: int) -> None:
        self.axis, self.begin, self.end = axis, 0, 0
        self._clocks = [0] * slots

    def take(self, happening: Happening) -> None:
        """Goes on by an entry."""
        if self.axis is Axis.ENTRIES:
            self.begin, self.end = self.end, self.end + 1
        elif self.axis is Axis.INSTRUCTIONS:
            self.begin, self.end = self.end, self.end + happening.cost
        elif happening.slot is None:
            self.begin = self.end
        else:
            self.end = max(self.end, self._clocks[happening.slot] + happening.cost)
            self.begin = self.end - happening.cost
            self._clocks[happening.slot] = self.end
