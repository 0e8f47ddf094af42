"""A call of the command: its words, its output, and the connection that it opens when it needs one."""
import argparse
import os
from dataclasses import dataclass
from typing import TYPE_CHECKING, Self

from arena.command.output import Output, output_of

if TYPE_CHECKING:
    from arena.client import Client
    from arena.host.folder import RunFolder

SOCKET = "/tmp/arena.sock"


class WordsFault(Exception):
    """The words, or the environment, leave something out."""


@dataclass
class Call:
    """A call. `client` connects at its first use, and `close` ends the connection."""

    words: argparse.Namespace
    output: Output
    _client: "Client | None" = None

    @classmethod
    def of(cls, words: argparse.Namespace) -> Self:
        """The call of these words."""
        return cls(words, output_of(bool(words.json), words.color))

    def __enter__(self) -> Self:
        return self

    def __exit__(self, *_: object) -> None:
        if self._client is not None:
            self._client.close()

    @property
    def socket(self) -> str:
        """The path of the server's socket."""
        return self.words.socket or os.environ.get("ARENA_SOCKET") or SOCKET

    @property
    def tenant(self) -> str:
        """The tenant's name. Raises WordsFault if none is said, or what is said can't be one."""
        from arena.lint import NAME
        tenant = self.words.tenant or os.environ.get("ARENA_TENANT")
        if not tenant:
            raise WordsFault("no tenant is named; give --tenant NAME, or set ARENA_TENANT")
        if not NAME.fullmatch(tenant):
            raise WordsFault(f"{tenant}: a tenant's name has 1 to 32 of the characters a to z, 0 to 9 and -")
        return tenant

    @property
    def folder(self) -> "RunFolder":
        """The run folder of arena-host. Raises WordsFault if none is said."""
        from arena.host.folder import RunFolder
        path = self.words.D or os.environ.get("ARENA_RUN")
        if not path:
            raise WordsFault("no run folder of arena-host is named; give it as the word D, or set ARENA_RUN")
        return RunFolder(path)

    @property
    def client(self) -> "Client":
        """The connection. Raises WordsFault, ConnectionLost, UnknownTenant, ConnectionLimit."""
        if self._client is None:
            from arena.client import Client
            self._client = Client(self.socket, self.tenant, timeout=self.words.timeout)
        return self._client

    def connect(self) -> "Client":
        """Another connection, which the caller closes."""
        from arena.client import Client
        return Client(self.socket, self.tenant, timeout=self.words.timeout)

    def again(self, words: argparse.Namespace) -> "Call":
        """A call with other words over the same connection."""
        return Call(words, Output(bool(words.json) or self.output.json, self.output.colour, self.output.colour_errors),
                    self.client)
