#!/usr/bin/env python3
"""A Unix socket on a client's machine that leads to a front by TLS, for the command `arena` and other clients of a socket.

usage: tunnel.py HOST[:PORT] SOCKET --certificate TENANT.pem --authority ca.crt [--name NAME]

NAME is the one in the front's certificate, if HOST is another.

It serves until it is interrupted. Whoever can open the socket is the tenant, so its owner alone can. Either side's end ends
a connection whole: a client that only ends its sending side loses the replies that it is still owed.
"""
import argparse
import asyncio
import os
import signal
import ssl
import sys
from dataclasses import dataclass


@dataclass
class Front:
    """Where connections are led, and by which certificate."""

    host: str
    port: int
    name: str
    context: ssl.SSLContext

    async def serve(self, reader: asyncio.StreamReader, writer: asyncio.StreamWriter) -> None:
        """Passes bytes both ways until one side has ended."""
        try:
            there = await asyncio.open_connection(self.host, self.port, ssl=self.context, server_hostname=self.name)
        except OSError as fault:
            print(f"tunnel.py: {self.host}:{self.port}: {fault}", file=sys.stderr)
            writer.close()
            return
        ways = [asyncio.create_task(passed(reader, there[1])), asyncio.create_task(passed(there[0], writer))]
        await asyncio.wait(ways, return_when=asyncio.FIRST_COMPLETED)
        for end in (writer, there[1]):
            end.close()


async def passed(reader: asyncio.StreamReader, writer: asyncio.StreamWriter) -> None:
    """Passes bytes on until there are no more."""
    try:
        while some := await reader.read(1 << 16):
            writer.write(some)
            await writer.drain()
    except OSError as fault:
        print(f"tunnel.py: {fault}", file=sys.stderr)


async def main() -> None:
    """Reads the words, and serves."""
    words = argparse.ArgumentParser(description=__doc__.split("\n")[0])
    words.add_argument("front", metavar="HOST[:PORT]")
    words.add_argument("socket", metavar="SOCKET")
    words.add_argument("--certificate", required=True)
    words.add_argument("--authority", required=True)
    words.add_argument("--name")
    given = words.parse_args()
    host, _, port = given.front.partition(":")
    context = ssl.create_default_context(cafile=given.authority)
    context.load_cert_chain(given.certificate)
    if os.path.lexists(given.socket):
        sys.exit(f"tunnel.py: {given.socket} is there already; if no server is behind it, remove it")
    asyncio.get_running_loop().add_signal_handler(signal.SIGTERM, asyncio.current_task().cancel)
    os.umask(0o077)
    front = Front(host, int(port or 7443), given.name or host, context)
    server = await asyncio.start_unix_server(front.serve, given.socket)
    print(f"{given.socket} leads to {host}", flush=True)
    try:
        await server.serve_forever()
    finally:
        os.unlink(given.socket)


if __name__ == "__main__":
    try:
        asyncio.run(main())
    except (OSError, ssl.SSLError) as fault:
        sys.exit(f"tunnel.py: {fault}")
    except (KeyboardInterrupt, asyncio.CancelledError):
        pass
