"""A connection as lines of bytes, for who knows what each reply is for, and never waits for one."""
from collections.abc import Sequence

from arena.connection import LONGEST_REPLY, Connection
from arena.replies import ConnectionLost, StrangeReply


class Wire(Connection):
    """The connection. Requests have no objects here, so none is owed a reply."""

    def put_lines(self, lines: Sequence[bytes]) -> None:
        """Takes lines that are sent by `flush`. Raises ConnectionLost."""
        if not self.is_open:
            raise ConnectionLost("not sent, the connection has ended; connect anew").undone()
        self._unsent += b"".join(lines)

    def lines(self) -> list[bytes]:
        """The replies that have come, without their newlines. Raises ConnectionLost, StrangeReply, and then the connection is closed;
        what came before the end is given first."""
        try:
            ended = self._take_all()
            *found, rest = bytes(self._bytes).split(b"\n")
            if len(rest) > LONGEST_REPLY:
                raise StrangeReply(f"{len(rest)} bytes without a newline are no reply of arena-server")
            del self._bytes[:len(self._bytes) - len(rest)]
        except BaseException:
            self.close()
            raise
        if ended and not found:
            self.close()
            raise ConnectionLost(f"{ended}; connect anew")
        return found
