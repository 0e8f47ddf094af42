"""How a process learns of news from PostgreSQL: a connection that listens."""
import psycopg2

from arena.queue.wake import Waker


class Listener(Waker):
    """A connection that listens for a topic. `url` is that of the queue."""

    def __init__(self, url: str, topic: str) -> None:
        self._base = psycopg2.connect(url, application_name=f"arena queue: {topic}")
        self._base.autocommit = True
        try:
            with self._base.cursor() as at:
                at.execute(f"LISTEN arena_{topic}")
        except BaseException:
            self._base.close()
            raise
        self._file = int(self._base.fileno())  # to be known by, also once it is lost

    def fileno(self) -> int:
        """See `Waker`."""
        return self._file

    def drain(self) -> None:
        """See `Waker`."""
        self._base.poll()
        self._base.notifies.clear()

    def close(self) -> None:
        """See `Waker`."""
        self._base.close()
