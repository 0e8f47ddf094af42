#!/usr/bin/env python3
"""Leads new connections of a tenant to another shard: in a HAProxy that runs, and in the map that it reads when it starts.

usage: move.py TENANT BACKEND [--map FILE] [--admin SOCKET]

The new shard must have the tenant in its configuration before. Connections that are there stay with the old shard until they
end, and so do the tenant's jobs there.
"""
import argparse
import os
import re
import socket
import sys


def asked(admin: str, command: str) -> str:
    """What a HAProxy that runs answers to a command."""
    with socket.socket(socket.AF_UNIX) as line:
        line.connect(admin)
        line.sendall(command.encode() + b"\n")
        with line.makefile() as replies:
            return replies.read().strip()


def changed(text: str, tenant: str, backend: str) -> str:
    """The map with a tenant's line replaced, or added at its end."""
    line = f"{tenant} {backend}\n"
    text, count = re.subn(rf"^{re.escape(tenant)}\s.*\n?", lambda _: line, text, flags=re.M)
    return text if count else text + line


def move(tenant: str, backend: str, path: str, admin: str) -> None:
    """Changes both, or ends the program before it has changed anything."""
    if not asked(admin, f"show servers state {backend}").startswith("1"):
        sys.exit(f"move.py: HAProxy has no backend {backend}")
    known = "key=" in asked(admin, f"get map {path} {tenant}")
    said = asked(admin, f"{'set' if known else 'add'} map {path} {tenant} {backend}")
    if said:
        sys.exit(f"move.py: HAProxy did not take it: {said}")
    with open(path) as old, open(f"{path}.part", "w") as new:
        new.write(changed(old.read(), tenant, backend))
    os.rename(f"{path}.part", path)
    print(f"{tenant} is led to {backend}")


def main() -> None:
    """Reads the words."""
    words = argparse.ArgumentParser(description=__doc__.split("\n")[0])
    words.add_argument("tenant")
    words.add_argument("backend")
    words.add_argument("--map", default="/etc/haproxy/arena/shards.map")
    words.add_argument("--admin", default="/run/haproxy/admin.sock")
    given = words.parse_args()
    if not re.fullmatch("[a-z0-9-]{1,32}", given.tenant):
        sys.exit(f"move.py: {given.tenant} is no tenant's name")
    try:
        move(given.tenant, given.backend, given.map, given.admin)
    except OSError as fault:
        sys.exit(f"move.py: {fault}")


if __name__ == "__main__":
    main()
