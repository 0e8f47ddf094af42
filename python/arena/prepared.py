"""Requests for jobs of one program, whose procedures are encoded once and not for each job."""
import json
from collections.abc import Sequence

from arena import requests
from arena.replies import Outcome
from arena.requests import Request

_EMPTY = {"args": [0, 0], "fuel": 1, "procs": []}


class Prepared:
    """The procedures of a job, ready to be asked for with any arguments and fuel.

        square = Prepared([[["mul", 2, 0, 0], ["ret", 2]]])
        client.send_requests([square.submit((n, 0), 10) for n in range(5)])
    """

    def __init__(self, procs: Sequence[object]) -> None:
        self.text = json.dumps(procs, separators=(",", ":"), sort_keys=True)
        self._tails: dict[str, bytes] = {}
        self._submit, self._execute = requests.submit(_EMPTY), requests.execute(_EMPTY)

    @classmethod
    def of_text(cls, text: str) -> "Prepared":
        """From the procedures as compact JSON."""
        made = cls(())
        made.text = text
        return made

    def line(self, op: str, args: tuple[int, int] = (0, 0), fuel: int = 1_000_000) -> bytes:
        """The line that asks to `submit` or `execute` the job, with its newline: the same bytes as those of a request that
        is made of the whole job."""
        if (tail := self._tails.get(op)) is None:
            tail = self._tails[op] = f'{self.text}}},"op":"{op}"}}\n'.encode()
        return b'{"job":{"args":[%d,%d],"fuel":%d,"procs":%b' % (*args, fuel, tail)

    def submit(self, args: tuple[int, int] = (0, 0), fuel: int = 1_000_000) -> Request[int]:
        """The request that submits the job."""
        return Request("submit", self.line("submit", args, fuel), self._submit.read, made=self._submit.made)

    def execute(self, args: tuple[int, int] = (0, 0), fuel: int = 1_000_000) -> Request[Outcome]:
        """The request that executes the job."""
        return Request("execute", self.line("execute", args, fuel), self._execute.read, made=self._execute.made)
