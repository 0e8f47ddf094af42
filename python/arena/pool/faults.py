"""What a pool raises when a job has no outcome: whether it is worth trying again."""
from arena.replies import ArenaError, Refused


class TryAgain(ArenaError):
    """The job has no outcome, and may have one if it is run again, here or elsewhere, now or later. `done` is False if nothing
    of it was run, and None if that is not known. """

    @classmethod
    def of(cls, why: str, done: bool | None, patience: float) -> "TryAgain":
        """That the pool has given up."""
        what = "nothing of it was run" if done is False else "it may have run"
        made = cls(f"no outcome within {patience:g} s: {why}; {what}; try again")
        made.done = done
        return made


class Final(ArenaError):
    """The job will have no outcome, however often it is tried: `fault` is why, such as a BadProgram or an UnknownTenant."""

    done = False

    def __init__(self, fault: Refused) -> None:
        super().__init__(str(fault))
        self.fault = fault
