#!/usr/bin/env python3
"""Stops the server at a socket in order, by removing the socket, and waits until it has ended.

usage: examples/server/stop.py SOCKET [SECONDS]     (how long to wait at most: 600 if it is left out)

The status is 0 also if there was no server, and 1 if it has not ended in time.
"""
import contextlib
import os
import select
import socket
import stat
import struct
import sys


def process_at(path):
    """A descriptor of the process that listens at a socket, and its number. It costs the server a connection. Raises
    OSError if nothing listens there."""
    with socket.socket(socket.AF_UNIX) as client:
        client.connect(path)
        number, *_ = struct.unpack("3i", client.getsockopt(socket.SOL_SOCKET, socket.SO_PEERCRED, 12))
        return os.pidfd_open(number), number


def stop(path, seconds):
    """Stops the server. Raises SystemExit if it does not end in time."""
    try:
        if not stat.S_ISSOCK(os.stat(path).st_mode):
            return f"no server at {path}: it is no socket"
        process, number = process_at(path)
    except ConnectionRefusedError:
        os.unlink(path)
        return f"no server at {path}: one that was killed had left its socket, which is removed now"
    except OSError as fault:
        return f"no server at {path}: {fault.strerror}"
    print(f"stopping the server at {path}, process {number}: long histories take a while to close", flush=True)
    with contextlib.suppress(FileNotFoundError):  # it was at its end already
        os.unlink(path)
    if not select.select([process], [], [], seconds)[0]:
        sys.exit(f"process {number} has not ended after {seconds:g} s; it may still write its dumps")
    return "it has ended"


if __name__ == "__main__":
    if len(sys.argv) not in (2, 3):
        sys.exit(__doc__)
    print(stop(sys.argv[1], float(sys.argv[2]) if len(sys.argv) == 3 else 600))
