"""A connection to a host for one tenant, on which many jobs are under way, and which is never waited for."""
import collections
import enum
import re
import time
from collections.abc import Sequence
from dataclasses import dataclass
from typing import Any, Generic

from arena import requests
from arena.places import Deadline, Place
from arena.pool.task import Tag, Task
from arena.pool.wire import Wire
from arena.prepared import Prepared
from arena.replies import Complete, Outcome, Refused, StrangeReply
from arena.requests import Request

COLLECTS = 32
"""How many collects are sent before the first is answered: what is sent can't be overtaken by a cancel."""

MADE = re.compile(rb'{"job":([1-9][0-9]{0,17})}')
COMPLETE = re.compile(rb'{"job":([1-9][0-9]{0,17}),"status":"complete","value":(0|-?[1-9][0-9]{0,17})}')
"""The replies that nearly all are, as a host writes them: whatever else comes is read in full."""

SUBMIT = Prepared(()).submit()


class Op(enum.Enum):
    """What was asked for."""

    HELLO = "hello"
    SUBMIT = "submit"
    COLLECT = "collect"
    CANCEL = "cancel"
    RETIRE = "retire"


@dataclass(eq=False, slots=True)
class Asked(Generic[Tag]):
    """A request that is owed a reply, the job that it is about, and the number that this has at the host."""

    op: Op
    task: Task[Tag] | None = None
    number: int = 0


@dataclass(eq=False, slots=True)
class Answer(Generic[Tag]):
    """What came of a request: an outcome, an error, or nothing more to know."""

    op: Op
    task: Task[Tag] | None
    said: Outcome | Refused | None


class Lane(Generic[Tag]):
    """The connection. Jobs are submitted, and each is collected and released once its number has come.

    Raises ConnectionLost, TimedOut. """

    def __init__(self, place: Place, tenant: str, connecting: float) -> None:
        self.began = self.heard = time.monotonic()
        self.fed = 0
        self.is_leaving = False
        """Whether it takes no more jobs, and ends when those that it has have ended."""
        self._tenant = tenant
        self._wire = Wire(place, Deadline(connecting))
        self._asked: collections.deque[Asked[Tag]] = collections.deque()
        self._to_send: list[bytes] = []
        self._made: collections.deque[Asked[Tag]] = collections.deque()
        self._collecting = 0
        self._to_cancel: set[Task[Tag] | None] = set()
        self._ask([Asked(Op.HELLO)], [requests.hello(tenant).line])

    def fileno(self) -> int:
        """What to wait for."""
        return self._wire.fileno()

    @property
    def under_way(self) -> list[Task[Tag]]:
        """The jobs that have no outcome."""
        return [it.task for some in (self._asked, self._made) for it in some if it.task is not None and it.op is not Op.CANCEL]

    @property
    def load(self) -> int:
        """How many requests and jobs are under way."""
        return len(self._asked) + len(self._made)

    @property
    def wants_to_write(self) -> bool:
        """Whether there is something that the socket had no room for."""
        return self._wire.has_unsent

    def feed(self, tasks: Sequence[Task[Tag]]) -> None:
        """Asks for jobs. `flush` sends that."""
        self.fed += len(tasks)
        self._ask([Asked(Op.SUBMIT, it) for it in tasks], [it.line for it in tasks])

    def retire(self) -> None:
        """Asks the host to forget the tenant's jobs. `flush` sends it."""
        self._ask([Asked(Op.RETIRE)], [requests.retire().line])

    def cancel(self, task: Task[Tag]) -> None:
        """Cancels a job that it was fed, unless its collect is sent already: at another connection a server that was started
        anew may have given its number to another job."""
        self._to_cancel.add(task)

    def _ask(self, asked: Sequence[Asked[Tag]], lines: Sequence[bytes]) -> None:
        """Notes requests, a line for each, which `flush` sends."""
        if not self._asked:
            self.heard = time.monotonic()
        self._asked += asked
        self._to_send += lines

    def flush(self) -> None:
        """Sends what there is room for. Raises ConnectionLost."""
        if self._to_send:
            to_send, self._to_send = self._to_send, []
            self._wire.put_lines(to_send)
        self._wire.flush()

    def read(self) -> list[Answer[Tag]]:
        """Takes the replies that have come, and asks for the outcomes of jobs whose numbers are among them; `flush` sends that.
        Raises ConnectionLost, StrangeReply, and then it has taken none."""
        lines = self._wire.lines()
        if len(lines) > len(self._asked):
            self._wire.close()
            raise StrangeReply("a reply came that nothing was asked for")
        said = [self._said(asked, line) for asked, line in zip(self._asked, lines, strict=False)]
        answers = [it for it in (self._take(self._asked.popleft(), one) for one in said) if it is not None]
        self.heard = time.monotonic()
        self._collect()
        return answers

    def _said(self, asked: Asked[Tag], line: bytes) -> Any:
        """What a reply says: a value, or an error. Raises StrangeReply."""
        if asked.op is Op.SUBMIT and (made := MADE.fullmatch(line)) is not None:
            return int(made[1])
        if asked.op is Op.COLLECT and (found := COMPLETE.fullmatch(line)) is not None and int(found[1]) == asked.number:
            return Complete(int(found[2]), asked.number)
        try:
            return self._request(asked).value(line)
        except Refused as fault:
            return fault.with_traceback(None)
        except StrangeReply:
            self._wire.close()
            raise

    def _request(self, asked: Asked[Tag]) -> Request[Any]:
        """The request that was sent, to read its reply by."""
        match asked.op:
            case Op.HELLO:
                return requests.hello(self._tenant)
            case Op.SUBMIT:
                program = None if asked.task is None else asked.task.program
                return Request("submit", b"", SUBMIT.read, program=program)
            case Op.COLLECT:
                return requests.collect(asked.number, release=True)
            case Op.CANCEL:
                return requests.cancel(asked.number)
            case Op.RETIRE:
                return requests.retire()

    def _take(self, asked: Asked[Tag], said: Any) -> Answer[Tag] | None:
        """What is to be told of a reply, if anything."""
        is_refused = isinstance(said, Refused)
        match asked.op:
            case Op.COLLECT:
                self._collecting -= 1
                self._to_cancel.discard(asked.task)
                return Answer(asked.op, asked.task, said)
            case Op.SUBMIT if not is_refused:
                asked.number = said
                self._made.append(asked)
                return None
            case Op.CANCEL:
                return None
        return Answer(asked.op, asked.task, said if is_refused else None)

    def _collect(self) -> None:
        """Asks for the outcomes of jobs whose numbers have come."""
        asked: list[Asked[Tag]] = []
        lines: list[bytes] = []
        for it in [self._made.popleft() for _ in range(min(len(self._made), COLLECTS - self._collecting))]:
            if it.task in self._to_cancel:
                asked.append(Asked(Op.CANCEL, it.task, it.number))
                lines.append(requests.cancel(it.number).line)
            it.op = Op.COLLECT
            asked.append(it)
            lines.append(b'{"job":%d,"op":"collect","release":true}\n' % it.number)
            self._collecting += 1
        self._ask(asked, lines)

    def close(self) -> None:
        """Ends the connection."""
        self._wire.close()
