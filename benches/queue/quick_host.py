#!/usr/bin/env python3
"""A host that runs nothing, and answers each job at once with the value 8: what is before it is measured alone.

usage: quick_host.py SOCKET
"""
import re
import selectors
import socket
import sys
from dataclasses import dataclass

COLLECT = re.compile(rb'"job":(\d+)')


@dataclass
class Connection:
    """A connection, and what has come of its next line."""

    socket: socket.socket
    rest: bytes = b""


class Host:
    """The host."""

    def __init__(self, path: str) -> None:
        self.jobs = 0
        self.selector = selectors.DefaultSelector()
        self.listener = socket.socket(socket.AF_UNIX)
        self.listener.bind(path)
        self.listener.listen(64)
        self.selector.register(self.listener, selectors.EVENT_READ)

    def run(self) -> None:
        """Serves until it is killed."""
        while True:
            for key, _ in self.selector.select():
                if key.data is None:
                    made = Connection(self.listener.accept()[0])
                    self.selector.register(made.socket, selectors.EVENT_READ, made)
                else:
                    self.serve(key.data)

    def serve(self, it: Connection) -> None:
        """Answers what has come."""
        try:
            more = it.socket.recv(1 << 20)
            *lines, it.rest = (it.rest + more).split(b"\n")
            it.socket.sendall(b"".join(map(self.reply, lines)))
        except OSError:
            more = b""
        if not more:
            self.selector.unregister(it.socket)
            it.socket.close()

    def reply(self, line: bytes) -> bytes:
        """The reply to a request."""
        if line.endswith(b'"op":"submit"}'):
            self.jobs += 1
            return b'{"job":%d}\n' % self.jobs
        if b'"op":"collect"' in line:
            found = COLLECT.search(line)
            return b'{"job":%s,"status":"complete","value":8}\n' % (found[1] if found else b"0")
        return b'{"tenant":"acme"}\n' if b'"hello"' in line else b'{"epoch":1}\n'


if __name__ == "__main__":
    Host(sys.argv[1]).run()
