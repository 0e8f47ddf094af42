"""The run folder of arena-host: where its files are, and whether a host holds it."""
import fcntl
import os
from dataclasses import dataclass


@dataclass(frozen=True, slots=True)
class RunFolder:
    """The folder that `arena-host --run` names."""

    path: str

    @property
    def lock(self) -> str:
        """The file that a host keeps locked while it runs."""
        return os.path.join(self.path, "lock")

    @property
    def socket(self) -> str:
        """The socket, whose removal is the order to stop."""
        return os.path.join(self.path, "socket")

    def rotate(self, tenant: str | None = None) -> str:
        """The file that is the order to open the next term of a tenant, or of each one; the host removes it when it takes the
        order."""
        return os.path.join(self.path, "rotate" if tenant is None else f"rotate.{tenant}")

    @property
    def status(self) -> str:
        """What the host does, as JSON."""
        return os.path.join(self.path, "status.json")

    @property
    def dumps(self) -> str:
        """The folder of the histories."""
        return os.path.join(self.path, "dumps")

    def is_held(self) -> bool:
        """Whether a host runs here. Raises OSError, if the lock is there and can't be opened.

        The lock is tried for shared use and given back at once. While a host runs, that changes nothing; a host that
        starts in the very microseconds of a try finds the folder taken. So this is not asked again and again of a
        folder in which no host runs.
        """
        try:
            lock = os.open(self.lock, os.O_RDONLY | os.O_CLOEXEC)
        except FileNotFoundError:
            return False
        try:
            fcntl.flock(lock, fcntl.LOCK_SH | fcntl.LOCK_NB)
            return False
        except BlockingIOError:
            return True
        finally:
            os.close(lock)
