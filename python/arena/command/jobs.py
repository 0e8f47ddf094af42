"""The commands that ask the server: run, submit, wait, poll, cancel, cells, info, retire."""
from arena.client import Client
from arena.command.call import Call, WordsFault
from arena.command.output import GREEN, RED, YELLOW
from arena.command.rehearsing import place_of_fault
from arena.command.sources import JobSource, job_of, source_of
from arena.command.words import JOB_WORDS, Command, Status, option, positional
from arena.jobs import GREATEST_FUEL
from arena.replies import ArenaError, Canceled, Complete, ConnectionLost, Fault, FaultCode, Outcome, Running, TimedOut
from arena.replies import Status as JobStatus
from arena.texts import listed

NUMBER = positional("JOB", "the job's number", type=int)
TO_CANCEL = 5.0
"""How many seconds an interrupted `run` takes at most to cancel its job."""


def about_fuel(given: int | None) -> str:
    """What to know of a job that is out of fuel, if it is known how much it was given."""
    if given is None:
        return f"; a job has {GREATEST_FUEL:,} at most"
    if given < GREATEST_FUEL:
        return f": it had {given:,}; --fuel gives up to {GREATEST_FUEL:,}"
    return f": it had {given:,}, the most that a job can have; split the work into several jobs"


def about_divisions(source: JobSource) -> str:
    """Where a source may have divided by zero."""
    lines = source.compiled.divisions() if source.compiled else []
    if not lines:
        return ""
    return f"; its source divides in line{'' if len(lines) == 1 else 's'} {listed(map(str, lines))}"


def about_fault(code: FaultCode, source: JobSource | None) -> str:
    """What is known of a fault: where it was, and how much fuel there was."""
    fuel = about_fuel(source.job["fuel"] if source else None) if code is FaultCode.FUEL else ""
    if source is None:
        return fuel
    place = place_of_fault(source, code)
    return fuel + (about_divisions(source) if code is FaultCode.DIVISION and not place else place)


def tell(call: Call, status: JobStatus, source: JobSource | None = None) -> int:
    """Prints a job's status: a value on standard output, anything else in words. `source` is what was run, if it is known.
    Returns the exit status."""
    output = call.output
    match status:
        case Complete(value, job):
            output.say(output.paint(str(value), GREEN), {"job": job, "status": "complete", "value": value})
            return Status.DONE
        case Fault(code, _, job):
            text = str(status) + about_fault(code, source)
            output.say(output.paint(text, RED), {"fault": code.value, "job": job, "status": "fault"})
            return Status.FAULT
        case Canceled(job):
            output.say(output.paint(str(status), YELLOW), {"job": job, "status": "canceled"})
            return Status.CANCELED
        case Running(job):
            output.say(str(status), {"job": job, "status": "running"})
            return Status.RUNNING


def run(call: Call) -> int:
    """Runs a job to its outcome: submits and collects it, so that it goes on without this command."""
    source = source_of(call.words)
    if call.words.durably:
        return tell(call, durable_outcome(call, source), source)
    if call.words.execute or has_no_slot_for_workers(call):
        return tell(call, call.client.execute(source.job), source)
    return tell(call, collected(call, call.client.submit(source.job)), source)


def durable_outcome(call: Call, source: JobSource) -> Outcome:
    """The outcome of a job that is run again wherever it is lost, until it has one. Raises TimedOut, Final."""
    if call.words.execute:
        raise WordsFault("--durably submits and collects, and --execute executes; give one of them")
    from arena.pool import Pool
    with Pool(call.socket, call.tenant, patience=None) as pool:
        return pool.run(source.job, again=True, timeout=call.words.timeout)


def has_no_slot_for_workers(call: Call) -> bool:
    """Whether all slots of the tenant are reserved, so that a submitted job would wait for ever."""
    limits = call.client.arena()
    return limits.slots == limits.reserved


def collected(call: Call, number: int) -> Outcome:
    """The outcome of a job that was submitted. If it is not waited for to its end, its number is said."""
    try:
        return call.client.collect(number)
    except TimedOut:
        raise TimedOut(f"job {number}: no outcome within {call.words.timeout} s; it goes on: `arena wait {number}` waits "
                       f"for it, `arena cancel {number}` cancels it") from None
    except ConnectionLost as fault:
        raise ConnectionLost(f"job {number}: {fault}") from None
    except KeyboardInterrupt:
        call.output.complain(f"arena: {canceled(call, number)}")
        raise


def canceled(call: Call, number: int) -> str:
    """Cancels a job whose outcome is not waited for any more, by another connection; says what came of it."""
    try:
        with Client(call.socket, call.tenant, timeout=TO_CANCEL) as other:
            return f"job {number} is cancelled" if other.cancel(number) else f"job {number} has ended"
    except ArenaError as fault:
        return f"job {number} goes on, as it could not be cancelled: {fault}"


def submit(call: Call) -> int:
    """Makes a job."""
    number = call.client.submit(job_of(call.words))
    call.output.say(str(number), {"job": number})
    return Status.DONE


def wait(call: Call) -> int:
    """Waits for a job."""
    return tell(call, call.client.collect(call.words.JOB, release=call.words.release))


def release(call: Call) -> int:
    """Makes the server forget a job."""
    number = call.words.JOB
    call.client.release(number)
    call.output.say(f"job {number}: released", {"released": number})
    return Status.DONE


def poll(call: Call) -> int:
    """Asks for a job's status."""
    return tell(call, call.client.poll(call.words.JOB))


def cancel(call: Call) -> int:
    """Cancels a job."""
    number = call.words.JOB
    first = call.client.cancel(number)
    text = f"job {number}: canceled" if first else f"job {number}: it had ended, had a fault, or was cancelled before"
    call.output.say(text, {"first": first, "job": number})
    return Status.DONE if first else Status.UNCHANGED


def cells(call: Call) -> int:
    """Asks for the cells of a key."""
    it = call.client.cells(call.words.KEY)
    text = f"key {it.key}: {it.count} cell{'' if it.count == 1 else 's'}, sum {it.sum}"
    call.output.say(text, {"count": it.count, "key": it.key, "sum": it.sum})
    return Status.DONE


def info(call: Call) -> int:
    """Asks for the tenant's limits."""
    it = call.client.arena()
    slots = "1 slot" if it.slots == 1 else f"{it.slots} slots"
    text = f"{call.tenant}: {slots}, {it.reserved} reserved, priority {it.priority}"
    call.output.say(text, {"priority": it.priority, "reserved": it.reserved, "slots": it.slots})
    return Status.DONE


def retire(call: Call) -> int:
    """Forgets all jobs."""
    epoch = call.client.retire()
    call.output.say(f"epoch {epoch}", {"epoch": epoch})
    return Status.DONE


COMMANDS = (
    Command("run", "run a job and print its value",
            "Submits a job, waits for its outcome, and prints the value. The exit status says how it ended: 0 complete, 1 "
            "a fault, 3 cancelled. If --timeout is over before, the job goes on, and its number is said; Ctrl-C cancels "
            "it. Where all slots are reserved the job is executed, as with --execute.",
            "arena run examples/jobs/fib.job --args 20", run,
            (*JOB_WORDS, option("--execute", help="execute the job, on a reserved slot if one is free, which starts it at "
                                "once; its number is known only at its end, so Ctrl-C can't cancel it",
                                action="store_true"),
             option("--durably", help="wait for a server, and run the job again whenever it is lost, as when its server dies; "
                                      "a job that is not serial may have run in part before", action="store_true")),
            in_shell=True),
    Command("submit", "make a job that waits for a worker, and print its number",
            "Makes a job that waits for a worker, and prints its number at once. A tenant without slots for workers "
            "never runs it.", "arena submit examples/jobs/fib.job --args 20", submit, JOB_WORDS, in_shell=True),
    Command("wait", "wait for a job's outcome, and print its value",
            "Waits until a job has its outcome, and prints it as `run` does. With --release the server forgets the job in the "
            "same step, so that it counts no more among the tenant's 256 jobs.", "arena wait 1 --timeout 10", wait,
            (NUMBER, option("--release", help="make the server forget the job", action="store_true")), in_shell=True),
    Command("release", "make the server forget a job that has ended",
            "Makes the server forget a job that has its outcome, so that it counts no more among the tenant's 256 jobs. The "
            "server refuses it while the job is running.", "arena release 1", release, (NUMBER,), in_shell=True),
    Command("poll", "print a job's status now",
            "Prints a job's status as it is now. Each poll is an entry of the tenant's history: to wait for a job, use "
            "`wait`.",
            "arena poll 1", poll, (NUMBER,), in_shell=True),
    Command("cancel", "cancel a job",
            "Cancels a job: its rows that wait are dropped, and those that run learn of it if they ask. The status is 1 if "
            "that changed nothing, since the job had ended, had a fault, or was cancelled before.", "arena cancel 1",
            cancel, (NUMBER,), in_shell=True),
    Command("cells", "print how many cells a key has, and their sum",
            "Prints on how many slots a key has a cell, and the sum of these cells, which wraps to 64 bits.",
            "arena cells 0 --json", cells, (positional("KEY", "a key, 0 to 7", type=int, choices=range(8),
                                                       metavar="KEY"),),
            in_shell=True),
    Command("info", "print the tenant's slots and priority",
            "Prints how many slots the tenant has, how many of them are reserved for jobs that are executed, and its priority.",
            "arena info --tenant acme", info, in_shell=True),
    Command("retire", "forget all jobs and cells of the tenant",
            "Forgets all jobs and cells of the tenant, so that it may have 256 jobs again. The server refuses while "
            "any row is open. It gives no history back.", "arena retire", retire, in_shell=True),
)
