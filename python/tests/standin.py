"""A host for tests that need no built program: it speaks the lines of docs/PROTOCOL.md, and its jobs are run by the rehearsal
of the package, each when it is submitted."""
import contextlib
import json
import os
import socket
import tempfile
import threading
from collections import Counter
from collections.abc import Sequence
from dataclasses import dataclass, field
from typing import Any, Self

from arena.replies import REFUSALS, Complete, Fault
from arena.trace.rehearsal import rehearse

MOST_JOBS = 256


def error(code: int) -> dict[str, Any]:
    """An error reply."""
    return {"code": code, "error": REFUSALS[code].name}


@dataclass
class Tenant:
    """The jobs of a tenant in a generation, and the number of the last one."""

    jobs: dict[int, dict[str, Any]] = field(default_factory=dict)
    last: int = 0
    retired: int = 0


class StandIn:
    """A host in threads. What a test sets:

    `refusals` are error codes that the next submits get; `cuts` is how many collects are still to be met by the end of their
    connection; `is_crowded` lets each job have fault 4 that is submitted while another one is not released; `poison` is a
    first argument at which a submit ends its connection, as often as `cuts` says; `rows` is how many rows a job may have open;
    `go` holds up collects until it is set. """

    def __init__(self, tenants: Sequence[str] = ("acme",)) -> None:
        self._folder = tempfile.TemporaryDirectory()
        self.path = os.path.join(self._folder.name, "socket")
        self.names = tenants
        self.refusals: list[int] = []
        self.cuts = 0
        self.is_crowded = False
        self.poison: int | None = None
        self.rows = 200
        self.go = threading.Event()
        self.go.set()
        self.met: Counter[str] = Counter()
        """How often each request was met, and `connections`."""
        self.beside: list[int] = []
        """How many other jobs were under way on its connection when a poisoned job was submitted."""
        self.lock = threading.Lock()
        self.start()

    def __enter__(self) -> Self:
        return self

    def __exit__(self, *_: object) -> None:
        self.kill()
        self._folder.cleanup()

    def start(self) -> None:
        """Starts it, without any job."""
        self.rotate()
        self._taken: list[socket.socket] = []
        self._listener = socket.socket(socket.AF_UNIX)
        self._listener.bind(self.path)
        self._listener.listen(64)
        threading.Thread(target=self._accept, args=(self._listener,), daemon=True).start()

    def rotate(self) -> None:
        """Lets new connections find no job."""
        self.tenants = {name: Tenant() for name in self.names}

    def kill(self) -> None:
        """Ends it, and all its connections."""
        if os.path.exists(self.path):
            os.unlink(self.path)
        for it in (self._listener, *self._taken):
            with contextlib.suppress(OSError):  # its client was first
                it.shutdown(socket.SHUT_RDWR)
            it.close()

    def leave(self, tenant: str, count: int) -> None:
        """Has jobs that were never collected."""
        it = self.tenants[tenant]
        it.jobs |= {number: {"job": number, "status": "canceled"} for number in range(1, count + 1)}
        it.last = count

    def _accept(self, listener: socket.socket) -> None:
        try:
            while True:
                made, _ = listener.accept()
                self._taken.append(made)
                threading.Thread(target=self._serve, args=(made,), daemon=True).start()
        except OSError:
            pass  # killed

    def _serve(self, made: socket.socket) -> None:
        self.met["connections"] += 1
        tenants, bound, mine = self.tenants, None, set[int]()
        try:
            with made, made.makefile("rb") as lines:
                for line in lines:
                    request = json.loads(line)
                    self.met[request["op"]] += 1
                    if request["op"] == "hello":
                        bound = tenants.get(request["tenant"])
                        reply = error(5) if bound is None else {"tenant": request["tenant"]}
                    else:
                        reply = error(11) if bound is None else self._answer(bound, request, mine)
                    if not reply:
                        return
                    made.sendall(json.dumps(reply).encode() + b"\n")
        except OSError:
            pass  # the client has gone, or this was killed

    def _answer(self, tenant: Tenant, request: dict[str, Any], mine: set[int]) -> dict[str, Any]:
        if request["op"] == "collect":
            self.go.wait(60)
        with self.lock:
            match request["op"]:
                case "submit":
                    return self._submit(tenant, request["job"], mine)
                case "collect":
                    if self.cuts and self.poison is None:
                        self.cuts -= 1
                        return {}
                    mine.discard(request["job"])
                    return tenant.jobs.pop(request["job"], None) or error(6)
                case "cancel":
                    return {"first": False, "job": request["job"]} if request["job"] in tenant.jobs else error(6)
                case "retire":
                    tenant.jobs.clear()
                    tenant.retired += 1
                    return {"epoch": tenant.retired}
        return error(3)

    def _submit(self, tenant: Tenant, job: dict[str, Any], mine: set[int]) -> dict[str, Any]:
        if self.poison is not None and job["args"][0] == self.poison:
            self.beside.append(len(mine))
            if self.cuts:
                self.cuts -= 1
                return {}
        if self.refusals:
            return error(self.refusals.pop(0))
        if len(tenant.jobs) >= MOST_JOBS:
            return error(7)
        tenant.last += 1
        mine.add(tenant.last)
        tenant.jobs[tenant.last] = {"job": tenant.last, **self._outcome(tenant, job)}
        return {"job": tenant.last}

    def _outcome(self, tenant: Tenant, job: dict[str, Any]) -> dict[str, Any]:
        if self.is_crowded and tenant.jobs:
            return {"status": "fault", "fault": 4}
        match rehearse(job, rows=self.rows).outcome:
            case Complete(value):
                return {"status": "complete", "value": value}
            case Fault(code):
                return {"status": "fault", "fault": code.value}
        return {"status": "canceled"}
