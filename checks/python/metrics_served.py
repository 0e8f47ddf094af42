"""A server of metrics on a thread, and what it answers."""
import contextlib
import http.client
import os
import sys
import threading

sys.path.insert(0, os.path.abspath("python"))

from serving import PATIENCE

from arena.host import RunFolder
from arena.host.address import Address
from arena.host.web import MetricsServer, Watcher


@contextlib.contextmanager
def served(folder, clock=None, **limits):
    """A server of a folder on a thread, at a port that is free."""
    watcher = Watcher(RunFolder(folder.path), clock) if clock else Watcher(RunFolder(folder.path))
    with MetricsServer(Address.parse("127.0.0.1:0"), watcher, **limits) as server:
        thread = threading.Thread(target=server.serve_forever, args=(0.01,))
        thread.start()
        try:
            yield server
        finally:
            server.shutdown()
            thread.join()


def asked(server, path, method="GET"):
    """The status, the headers and the text of an answer."""
    connection = http.client.HTTPConnection("127.0.0.1", server.server_port, timeout=PATIENCE)
    with contextlib.closing(connection):
        connection.request(method, path)
        reply = connection.getresponse()
        return reply.status, dict(reply.getheaders()), reply.read().decode()
