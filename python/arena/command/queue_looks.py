"""What the commands of `arena queue` do that look at jobs, and change nothing."""
import json
import time
from typing import TYPE_CHECKING

from arena.command.call import Call
from arena.command.output import GREEN, RED, YELLOW, Progress
from arena.command.queue_named import MICROSECONDS, store_of, tenant_of
from arena.command.words import Status
from arena.texts import counted

if TYPE_CHECKING:
    from arena.queue.model import Job


def tell(call: Call, job: "Job") -> int:
    """Prints how far a job is, as `arena run` does; the exit status that it has."""
    from arena.queue.model import State
    from arena.replies import FaultCode
    paint, about = call.output.paint, f"; {job.error}" if job.error else ""
    match job.state:
        case State.COMPLETE:
            text, status = paint(str(job.value), GREEN), Status.DONE
        case State.FAULT:
            text, status = paint(f"job {job.job}: fault {job.fault}, {FaultCode(job.fault or 0).text}", RED), Status.FAULT
        case State.DEAD:
            text, status = paint(f"job {job.job}: dead{about}", RED), Status.FAULT
        case State.CANCELED:
            text, status = paint(f"job {job.job}: canceled", YELLOW), Status.CANCELED
        case _:
            text, status = f"job {job.job}: {job.state.value}{about}", Status.RUNNING
    call.output.say(text, job.to_value())
    return status


def wait(call: Call) -> int:
    """Waits for jobs."""
    numbers = call.words.JOB
    progress = Progress("waiting", len(numbers))
    with store_of(call) as queue:
        queue.jobs(numbers, tenant_of(call))
        found = queue.wait(numbers, call.words.timeout, lambda left: progress.at(len(numbers) - left))
    progress.end()
    statuses = [tell(call, it) for it in found]
    return Status.TIMEOUT if Status.RUNNING in statuses else max(statuses)


def result(call: Call) -> int:
    """Prints how far jobs are."""
    with store_of(call) as queue:
        return max(tell(call, it) for it in queue.jobs(call.words.JOB, tenant_of(call)))


def listing(call: Call) -> int:
    """Prints jobs, the newest first."""
    from arena.queue.model import State
    words = call.words
    with store_of(call) as queue:
        found = queue.listed(tenant_of(call), State(words.state) if words.state else None, words.before, words.limit)
    for job in found:
        what = job.value if job.state is State.COMPLETE else f"fault {job.fault}" if job.fault else job.error or ""
        call.output.say(f"{job.job:>10}  {job.tenant:<12} {job.state.value:<10} {job.args[0]} {job.args[1]}  {what}".rstrip(),
                        job.to_value())
    return Status.DONE


def show(call: Call) -> int:
    """Prints a job and what happened to it."""
    with store_of(call) as queue:
        job = queue.job(call.words.JOB, tenant_of(call))
        events = queue.events(job.job)
    value = job.to_value()
    value["events"] = [{"at": it.at / MICROSECONDS, "attempt": it.attempt, "what": it.what, "detail": it.detail} for it in events]
    lines = [f"{name}: {_shown(name, it)}" for name, it in value.items() if name != "events"]
    lines += [f"{_time(it.at)} attempt {it.attempt}: {it.what}" + (f": {it.detail}" if it.detail else "") for it in events]
    call.output.say("\n".join(lines), value)
    return Status.DONE


def _shown(name: str, value: object) -> str:
    if name.endswith("_at") and isinstance(value, float):
        return _time(int(value * MICROSECONDS))
    return value if isinstance(value, str) else json.dumps(value)


def _time(at: int) -> str:
    return time.strftime("%F %T", time.localtime(at / MICROSECONDS))


def stats(call: Call) -> int:
    """Prints counts."""
    with store_of(call) as queue:
        found = queue.stats(tenant_of(call))
    lines = [f"{tenant}: " + ", ".join(f"{count} {state}" for state, count in counts.items())
             for tenant, counts in found["tenants"].items()]
    oldest = found["oldest_ready_seconds"]
    lines.append(f"{counted(found['ended_last_minute'], 'job')} ended in the last minute; "
                 + ("none is ready" if oldest is None else f"the oldest ready one waits for {oldest:.1f} s"))
    lines += [f"dispatcher {it['dispatcher']}, {it['name']}: its lease has {it['lease_seconds']:.1f} s left; "
              + (f"it has {', '.join(it['hosts'])}" if it["hosts"] else "it stands by") for it in found["dispatchers"]]
    lines += [] if found["dispatchers"] else ["no dispatcher runs"]
    call.output.say("\n".join(lines), found)
    return Status.DONE
