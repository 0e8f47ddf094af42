"""What the server answers, as values and exceptions.

A status is `Complete`, `Fault`, `Canceled` or `Running`; an outcome is any of the first three. An error reply is raised
as the exception of its name, all of which are `Refused`.
"""
import enum
from collections.abc import Mapping
from dataclasses import dataclass, field
from typing import Any, ClassVar, Self

from arena.jobs import GREATEST_NUMBER, LEAST_NUMBER


class FaultCode(enum.IntEnum):
    """Why a job ended with a fault."""

    DIVISION = 1
    FUEL = 2
    TOO_DEEP = 3
    TASK_LIMIT = 4
    MISSING_WAIT = 5

    @property
    def text(self) -> str:
        """The cause in words."""
        return _CAUSES[self]


_CAUSES = {
    FaultCode.DIVISION: "division by zero",
    FaultCode.FUEL: "out of fuel",
    FaultCode.TOO_DEEP: "a row would be the 129th on its slot's stack",
    FaultCode.TASK_LIMIT: "no open row was left: the tenant's `rows` were reached",
    FaultCode.MISSING_WAIT: "a row returned with a group that it had not waited for",
}


@dataclass(frozen=True, slots=True)
class Complete:
    """The job returned this value."""

    value: int
    job: int

    def __str__(self) -> str:
        return f"job {self.job}: {self.value}"


@dataclass(frozen=True, slots=True)
class Fault:
    """The job ended with this fault; `name` says the cause in words."""

    __match_args__ = ("code", "name", "job")
    code: FaultCode
    name: str = field(init=False)
    job: int

    def __post_init__(self) -> None:
        object.__setattr__(self, "name", self.code.text)

    def __str__(self) -> str:
        return f"job {self.job}: fault {self.code.value}, {self.name}"


@dataclass(frozen=True, slots=True)
class Canceled:
    """The job was cancelled by request, and none of its rows had a fault."""

    job: int

    def __str__(self) -> str:
        return f"job {self.job}: canceled"


@dataclass(frozen=True, slots=True)
class Running:
    """Some row of the job waits or is live."""

    job: int

    def __str__(self) -> str:
        return f"job {self.job}: running"


Outcome = Complete | Fault | Canceled
Status = Outcome | Running


@dataclass(frozen=True, slots=True)
class Cells:
    """The cells of a key: on how many slots there is one, and their sum, which wraps to 64 bits."""

    key: int
    count: int
    sum: int


@dataclass(frozen=True, slots=True)
class Limits:
    """A tenant's slots, how many of them are reserved for `execute`, and its priority: low, normal or high."""

    slots: int
    reserved: int
    priority: str


class ArenaError(Exception):
    """Something went wrong between client and server; the text says what, and what to do.

    `done` is False if nothing was done of what was asked for, and None if that is not known. """

    done: bool | None = None

    def undone(self) -> Self:
        """It, as one after which nothing was done."""
        self.done = False
        return self


class ConnectionLost(ArenaError):
    """There is no server at the path, or it ended the connection before a reply."""

    @classmethod
    def at(cls, path: str, fault: OSError) -> Self:
        """That a path can't be connected to."""
        return cls(f"{path}: {fault.strerror or fault}; is arena-server or arena-host running there? arena-server ends "
                   "by itself after as many connections as its --connections says").undone()


class TimedOut(ArenaError, TimeoutError):
    """No reply came in time. A request that was sent stands, and its reply comes before those of later requests."""


class StrangeReply(ArenaError):
    """A line that is no reply to what was asked: something else than arena-server listens at the path. The connection
    ends, since no later reply of it can be trusted."""


class InUse(ArenaError):
    """A call on a client whose other call is under way: on another thread, or interrupted by this one in a signal
    handler. It did nothing."""

    done = False


class Refused(ArenaError):
    """An error reply, with its `code`, its `name` and what to do about it, `advice`. `passes` is whether the same request
    may be accepted later. A refused request did nothing, but for an `execute` that meets a full history: its job may have
    been made before, and then `done` is None. """

    code: ClassVar[int]
    name: ClassVar[str]
    advice: str
    passes: ClassVar[bool] = False
    done: bool | None = False

    def __init__(self, request: str = "the request") -> None:
        super().__init__(f"{request}: error {self.code}, {self.name}: {self.advice}")
        self.request = request


class LineTooLong(Refused):
    """Error 1."""

    code, name = 1, "line_too_long"
    advice = "a request has at most 65,536 bytes; make the job smaller"


class BadJson(Refused):
    """Error 2."""

    code, name = 2, "bad_json"
    advice = "the line is no JSON in UTF-8, or nested more than 127 deep"


class BadRequest(Refused):
    """Error 3."""

    code, name = 3, "bad_request"
    advice = "no request has just these members, or `hello` came twice; docs/PROTOCOL.md lists the requests"


class BadProgram(Refused):
    """Error 4. `place` says where the job has its first fault, and which, in the words of `arena.lint`."""

    code, name = 4, "bad_program"
    advice = "the job is not valid; `arena lint FILE` names the place"

    def __init__(self, request: str = "the request", place: str = "") -> None:
        super().__init__(request)
        self.place = place
        if place:
            self.args = (f"{request}: error {self.code}, {self.name}: the job is not valid: {place}",)


class UnknownTenant(Refused):
    """Error 5."""

    code, name = 5, "unknown_tenant"
    advice = "the server's configuration has no tenant of that name"


class UnknownJob(Refused):
    """Error 6."""

    code, name = 6, "unknown_job"
    advice = "no job has that number, or it is retired or released"


class LostJob(UnknownJob):
    """Error 6 for a job that this client made on a connection which has ended since."""

    advice = ("this client made the job on a connection that has ended: the server was started anew since, its term was closed "
              "long ago, or it was retired; run it again if its outcome is still wanted")


class JobLimit(Refused):
    """Error 7."""

    code, name, passes = 7, "job_limit", True
    advice = "the tenant has 256 jobs; release those that are done, or retire all once none is running"


class HistoryFull(Refused):
    """Error 8."""

    code, name, passes = 8, "history_full", True
    advice = ("the tenant's history has all its `steps` entries; arena-host could open no new one, so ask again later, or the tenant "
              "is gone from its configuration; start arena-server anew, with more `steps` if there are fewer than 1,048,576")
    advice_of_job = ("the history that the job is in has all its `steps` entries, or ended before the job did; if arena-host answers "
                     "this again, the job is lost, so run it again; start arena-server anew, with more `steps` if there are fewer "
                     "than 1,048,576")

    def __init__(self, request: str = "the request") -> None:
        if request.startswith(("poll ", "collect ")):
            self.advice = self.advice_of_job
        super().__init__(request)
        self.done = None if request == "execute" else False


class NoMemory(Refused):
    """Error 9."""

    code, name, passes = 9, "no_memory", True
    advice = "the server had no memory for this; ask again later"


class TaskLimit(Refused):
    """Error 10."""

    code, name, passes = 10, "task_limit", True
    advice = "the tenant has as many open rows as its `rows`; wait for a job, or raise `rows`"


class NoTenant(Refused):
    """Error 11."""

    code, name = 11, "no_tenant"
    advice = "name a tenant first: give the client one, or call hello"


class Busy(Refused):
    """Error 12."""

    code, name, passes = 12, "busy", True
    advice = "a row is open; wait for the job, or for all jobs before a `retire`, or cancel, and ask again"


class ConnectionLimit(Refused):
    """Error 13, for a hello."""

    code, name, passes = 13, "connection_limit", True
    advice = ("the tenant has as many connections as the host lets it have (`--tenant-connections`); close one that is not "
              "needed, or try again later")


REFUSALS: dict[int, type[Refused]] = {kind.code: kind for kind in Refused.__subclasses__()}


PRIORITIES = ("low", "normal", "high")
GREATEST_COUNT = 2**64 - 1
"""The greatest number of a job or an epoch."""


def whole(number: object, least: int = LEAST_NUMBER, greatest: int = GREATEST_NUMBER) -> int:
    """A whole number of a reply. Raises ValueError if it is none, or not within the bounds."""
    if type(number) is not int or not least <= number <= greatest:
        raise ValueError(f"{number!r:.40} is no whole number from {least} to {greatest}")
    return number


def members(reply: Mapping[str, object], *names: str) -> list[Any]:
    """The values of the members of a reply, which has just these. Raises ValueError if it has others."""
    if not isinstance(reply, dict) or reply.keys() != set(names):
        raise ValueError(f"a reply with the members {', '.join(names)} is expected")
    return [reply[name] for name in names]


def number_of(job: object, asked: int | None = None) -> int:
    """The number of a job in a reply. Raises ValueError if it is none, or not the one that was asked about."""
    number = whole(job, 1, GREATEST_COUNT)
    if asked not in (None, number):
        raise ValueError(f"job {asked} was asked about, and the reply is about job {number}")
    return number


def status_of(reply: dict[str, Any], asked: int | None = None) -> Status:
    """The status that a reply says, of the job that was asked about. Raises KeyError or ValueError if it says none."""
    match reply.get("status"):
        case "complete":
            job, _, value = members(reply, "job", "status", "value")
            return Complete(whole(value), number_of(job, asked))
        case "fault":
            code, job, _ = members(reply, "fault", "job", "status")
            return Fault(FaultCode(whole(code)), number_of(job, asked))
        case "canceled" | "running" as status:
            job, _ = members(reply, "job", "status")
            number = number_of(job, asked)
            return Canceled(number) if status == "canceled" else Running(number)
    raise ValueError("a status is expected")


def outcome_of(reply: dict[str, Any], asked: int | None = None) -> Outcome:
    """The outcome that a reply says, as `status_of`; a job that is running has none."""
    status = status_of(reply, asked)
    if isinstance(status, Running):
        raise ValueError("an outcome is expected")
    return status


def cells_of(reply: dict[str, Any], asked: int) -> Cells:
    """The cells of a key that a reply says. Raises ValueError if it says none of that key."""
    count, key, total = members(reply, "count", "key", "sum")
    return Cells(whole(key, asked, asked), whole(count, 0), whole(total))


def limits_of(reply: dict[str, Any]) -> Limits:
    """A tenant's limits. Raises ValueError."""
    priority, reserved, slots = members(reply, "priority", "reserved", "slots")
    if priority not in PRIORITIES:
        raise ValueError(f"a priority is one of {', '.join(PRIORITIES)}")
    return Limits(whole(slots, 1), whole(reserved, 0, slots), priority)
