"""What the commands of `arena queue` do that change the queue, or serve it."""
import argparse
import logging
import signal
import sys
from collections.abc import Callable, Iterator, Sequence
from dataclasses import replace
from itertools import islice
from typing import TYPE_CHECKING, Any

from arena.command.call import Call, WordsFault
from arena.command.queue_named import MICROSECONDS, store_of, tenant_of, where_of
from arena.command.sources import job_of
from arena.command.words import Status
from arena.texts import counted

if TYPE_CHECKING:
    from arena.queue.model import NewJob
    from arena.queue.store import Store

BATCH = 1000
"""How many jobs are submitted in one transaction."""

MOST_PROCESSES = 64
"""How many processes serve at most."""

LONGEST_SOURCE = 65_536
"""How many characters of a source are kept at most."""

Run = Callable[[Call], int]


def init(call: Call) -> int:
    """Makes the queue, and says what is kept."""
    from arena.queue.base import shown
    from arena.queue.store import Keeping
    words = call.words
    if words.reuse and not tenant_of(call):
        raise WordsFault("--reuse is a tenant's; give --tenant NAME")
    with store_of(call, make=True) as queue:
        old = queue.keeping()
        keeping = Keeping(old.seconds if words.keep is None else _kept(words.keep), old.jobs if words.keep_jobs is None
                          else _kept(words.keep_jobs))
        if keeping != old:
            queue.set_keeping(keeping)
        if words.reuse:
            queue.set_reuse(tenant_of(call) or "", words.reuse == "yes")
        kept = "for ever" if keeping.seconds is None else f"for {keeping.seconds:,} seconds"
        most = "all of them" if keeping.jobs is None else f"{keeping.jobs:,} at most"
        where = shown(queue.base.where)
        call.output.say(f"{where}: ended jobs are kept {kept}, {most}",
                        {"keep_jobs": keeping.jobs, "keep_seconds": keeping.seconds, "queue": where})
    return Status.DONE


def _kept(number: float) -> int | None:
    """A number of a word, of which 0 stands for no limit."""
    return int(number) or None


def submit(call: Call) -> int:
    """Submits one job, or one for each line of standard input."""
    with store_of(call) as queue:
        jobs = _new_jobs(call)
        while some := list(islice(jobs, BATCH)):
            for it in queue.submit(some):
                call.output.say(str(it.job), {"job": it.job, "made": it.made})
            sys.stdout.flush()
    return Status.DONE


def _new_jobs(call: Call) -> "Iterator[NewJob]":
    from arena.queue.model import NewJob
    from arena.queue.programs import Parts
    words, tenant = call.words, call.tenant
    if words.lines and words.FILE == "-":
        raise WordsFault("with --lines standard input has the arguments, so the job is in a file")
    if words.lines and words.key:
        raise WordsFault("with --lines each line may have a key, and --key is for one job")
    parts = Parts.of(job_of(words))
    program = replace(parts.program, source=_source(words))
    delay = int((words.delay or 0) * MICROSECONDS)

    def new(args: tuple[int, int], key: str | None) -> NewJob:
        """A job with these arguments."""
        return NewJob(tenant, program, args, parts.fuel, key, words.priority, most_failures=words.failures, delay=delay)

    if not words.lines:
        yield new(parts.args, words.key)
        return
    for number, line in enumerate(sys.stdin, 1):
        if line.strip():
            yield new(*_arguments(number, line))


def program(call: Call) -> int:
    """Keeps the program of a job, and prints its hash."""
    from arena.queue.programs import Parts
    parts = Parts.of(job_of(call.words))
    with store_of(call) as queue:
        queue.keep_program(replace(parts.program, source=_source(call.words)))
    call.output.say(parts.program.hash, {"program": parts.program.hash, "serial": parts.program.is_serial})
    return Status.DONE


def _source(words: argparse.Namespace) -> str | None:
    """What a job was compiled from, if that is all there is to know."""
    from arena.command.sources import read_text
    text = read_text(words.FILE) if words.FILE.endswith(".job") and not words.define else None
    return text if text is None or len(text) <= LONGEST_SOURCE else None


def _arguments(number: int, line: str) -> tuple[tuple[int, int], str | None]:
    """The arguments and the key of a line. Raises SourceWrong."""
    from arena.command.sources import SourceWrong
    from arena.command.words import integer
    from arena.jobs import GREATEST_NUMBER, LEAST_NUMBER
    first, *rest = line.split(maxsplit=2)
    try:
        x, y = integer(first), integer(rest[0]) if rest else 0
    except ValueError:
        raise SourceWrong(f"line {number}: {line.strip()[:40]!r}: a line is X, X Y or X Y KEY, where X and Y are numbers") from None
    if not all(LEAST_NUMBER <= it <= GREATEST_NUMBER for it in (x, y)):
        raise SourceWrong(f"line {number}: an argument has 64 bits")
    return (x, y), rest[1].strip() if len(rest) > 1 else None


def run(call: Call) -> int:
    """Runs a dispatcher until a signal ends it."""
    from arena.pool.task import Settings as HostSettings
    from arena.queue.dispatcher import Dispatcher, Settings
    words = call.words
    _look(call)
    hosts = HostSettings(window=words.window, lanes=words.lanes, connections=words.connections, retire=True)
    dispatcher = Dispatcher(where_of(call), words.D, Settings(hosts, lease=words.lease), synchronous=words.synchronous or "full")
    before = {it: signal.signal(it, lambda *_: dispatcher.stop()) for it in (signal.SIGTERM, signal.SIGINT)}
    try:
        dispatcher.run()
    finally:
        for number, handler in before.items():
            signal.signal(number, handler)
    counts = dict(dispatcher.counts)
    call.output.say(f"{counted(counts.get('ended', 0), 'job')} ended; jobs were given back {counts.get('given_back', 0)} times",
                    counts)
    return Status.DONE


def _look(call: Call) -> None:
    """Begins to write what happens, and looks whether there is a queue: what is none ends this at once, and a database that can't be
    used now is waited for."""
    from arena.queue.base import faults_of
    logging.basicConfig(level=logging.INFO, stream=sys.stderr, format="%(asctime)s arena queue: %(message)s")
    try:
        store_of(call).close()
    except faults_of(where_of(call)) as fault:
        logging.warning("the queue's database: %s; it is waited for", str(fault).strip())


def cancel(call: Call) -> int:
    """Cancels jobs."""
    from arena.queue.model import State
    states = _each(call, lambda queue, job: queue.cancel(job, tenant_of(call)))
    return Status.DONE if all(it in (State.CANCELED, State.RUNNING) for it in states) else Status.UNCHANGED


def retry(call: Call) -> int:
    """Runs jobs again."""
    if call.words.dead and not call.words.JOB:
        from arena.queue.model import State
        with store_of(call) as queue:
            call.words.JOB = [it.job for it in queue.listed(tenant_of(call), State.DEAD, limit=10_000)]
    elif call.words.dead or not call.words.JOB:
        raise WordsFault("give the numbers of jobs, or --dead for those that are dead")
    _each(call, lambda queue, job: queue.retry(job, tenant_of(call)))
    return Status.DONE


def _each(call: Call, what: "Callable[[Store, int], Any]") -> Sequence[Any]:
    """Does something with each job of the words, and prints the state that each has then."""
    states = []
    with store_of(call) as queue:
        for job in call.words.JOB:
            states.append(what(queue, job))
            call.output.say(f"job {job}: {states[-1].value}", {"job": job, "state": states[-1].value})
    return states


def purge(call: Call) -> int:
    """Removes jobs that have ended, and programs that no job has."""
    from arena.queue.model import ENDED, State
    states, gone = [State(it) for it in call.words.state or ()] or ENDED, 0
    with store_of(call) as queue:
        while some := queue.purge(call.words.before, states):
            gone += some
        programs = queue.purge_programs()
    call.output.say(f"{counted(gone, 'job')} and {counted(programs, 'program')} removed", {"jobs": gone, "programs": programs})
    return Status.DONE


def token(call: Call) -> int:
    """Makes a token, or makes all of a tenant worthless."""
    tenant = call.tenant
    _limits(call)
    with store_of(call) as queue:
        if call.words.revoke:
            gone = queue.drop_tokens(tenant)
            call.output.say(f"{counted(gone, 'token')} of {tenant} revoked", {"revoked": gone, "tenant": tenant})
        else:
            made = queue.new_token(tenant, call.words.note, call.words.rate, call.words.bytes)
            call.output.say(made, {"tenant": tenant, "token": made})
    return Status.DONE


def serve(call: Call) -> int:
    """Serves the queue over HTTP until a signal ends it."""
    from arena.host.address import Address
    try:
        from arena.queue.http.service import serve as serve_http
    except ImportError as fault:
        raise WordsFault(f"{fault}: serving needs aiohttp (Debian: apt install python3-aiohttp)") from None
    try:
        address = Address.parse(call.words.listen)
    except ValueError as fault:
        raise WordsFault(f"--listen {call.words.listen}: ADDRESS:PORT is wanted: {fault}") from None
    _limits(call)
    _look(call)

    def began(port: int) -> None:
        """Says where."""
        call.output.say(f"serving at http://{Address(address.host, port)}", {"port": port})
        sys.stdout.flush()
    if not 1 <= call.words.processes <= MOST_PROCESSES:
        raise WordsFault(f"--processes {call.words.processes}: 1 to {MOST_PROCESSES} are possible")
    try:
        is_stopped = serve_http(where_of(call), address, call.words.rate, call.words.bytes, call.words.processes, began)
    except OSError as fault:
        raise WordsFault(f"--listen {call.words.listen}: {fault.strerror or fault}") from None
    if not is_stopped:
        call.output.complain("arena: a process of the service ended by itself, and with it the others")
    return Status.DONE if is_stopped else Status.QUEUE


def _limits(call: Call) -> None:
    """Raises WordsFault for a rate or a size that nothing could keep."""
    for name in ("rate", "bytes"):
        limit = getattr(call.words, name)
        if limit is not None and not 0 < limit < 1e12:
            raise WordsFault(f"--{name} {limit:g}: a number above 0 is wanted")
