"""Many requests at once: they are sent together, and their replies are read in order."""
from collections.abc import Sequence
from typing import Any, Generic, Self, TYPE_CHECKING, TypeVar, cast

from arena import requests
from arena.replies import ArenaError, Cells, Limits, Outcome, Refused, Status
from arena.requests import JobLike, Request

if TYPE_CHECKING:
    from arena.client import Client

Value = TypeVar("Value")

# How many replies a pipeline leaves unread. A reply has fewer than 128 bytes, so these fit any socket's buffer, and the
# server never stops reading because its replies are not read.
OUTSTANDING = 256


class Pending(Generic[Value]):
    """The reply to a request of a pipeline, which is there after the `with` block."""

    def __init__(self, request: Request[Value]) -> None:
        self._request = request
        self._fault: ArenaError | None = ArenaError(f"{request.what}: no reply yet; a pipeline's results are there "
                                                    "after its `with` block")
        self._value: Value | None = None

    def _take(self, client: "Client", line: bytes) -> None:
        """Takes the line of the reply. Raises StrangeReply."""
        try:
            self._value, self._fault = client._value(self._request, line), None
        except Refused as fault:
            self._fault = fault

    def _give_up(self, why: str) -> None:
        """Notes why no reply will come."""
        self._fault = ArenaError(f"{self._request.what}: {why}")

    def result(self) -> Value:
        """What the reply says. Raises as the request's own call does."""
        if self._fault is not None:
            raise self._fault.with_traceback(None)
        return cast(Value, self._value)


class Pipeline:
    """Requests in a row. They are sent when the `with` block ends, and then all replies are read, in order.

    An `execute` or `collect` among them HOLDS those that follow. After the block the first error reply is raised,
    unless the pipeline was made with `raises=False`; `result` of each pending reply raises its own. """

    def __init__(self, client: "Client", raises: bool) -> None:
        self._client, self._raises = client, raises
        self._all: list[Pending[Any]] = []

    def __enter__(self) -> Self:
        return self

    def __exit__(self, kind: type[BaseException] | None, *_: object) -> None:
        if kind is None:
            self._run()

    def _run(self) -> None:
        todo, self._all = self._all, []
        with self._client._turn():
            for start in range(0, len(todo), OUTSTANDING):
                self._exchange(todo[start:start + OUTSTANDING], todo[start + OUTSTANDING:])
        if self._raises:
            for pending in todo:
                pending.result()

    def _exchange(self, batch: Sequence[Pending[Any]], unsent: Sequence[Pending[Any]]) -> None:
        """Sends some requests and reads their replies. If that ends early, the others know why they have none."""
        client, answered = self._client, 0
        why = "not sent, or in part alone: the pipeline ended before"
        try:
            client._send([it._request for it in batch], "the pipeline", client._deadline())
            why = "sent, but the pipeline ended before its reply"
            for pending in batch:
                pending._take(client, client._reply(pending._request.what, client._deadline()))
                answered += 1
        except BaseException:
            for pending in batch[answered:]:
                pending._give_up(why)
            for pending in unsent:
                pending._give_up("not sent: the pipeline ended before")
            raise

    def _put(self, request: Request[Value]) -> Pending[Value]:
        pending = Pending(request)
        self._all.append(pending)
        return pending

    def submit(self, job: JobLike) -> Pending[int]:
        """As Client.submit."""
        return self._put(requests.submit(job))

    def execute(self, job: JobLike) -> Pending[Outcome]:
        """As Client.execute."""
        return self._put(requests.execute(job))

    def poll(self, number: int) -> Pending[Status]:
        """As Client.poll."""
        return self._put(requests.poll(number))

    def collect(self, number: int, *, release: bool = False) -> Pending[Outcome]:
        """As Client.collect."""
        return self._put(requests.collect(number, release))

    def release(self, number: int) -> Pending[None]:
        """As Client.release."""
        return self._put(requests.release(number))

    def cancel(self, number: int) -> Pending[bool]:
        """As Client.cancel."""
        return self._put(requests.cancel(number))

    def cells(self, key: int) -> Pending[Cells]:
        """As Client.cells."""
        return self._put(requests.cells(key))

    def arena(self) -> Pending[Limits]:
        """As Client.arena."""
        return self._put(requests.limits())

    def retire(self) -> Pending[int]:
        """As Client.retire."""
        return self._put(requests.retire())
