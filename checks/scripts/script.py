"""Scripts in few words: their lines, the program that runs them, and the jobs of `worked_jobs`."""
import json
import pathlib
import re
import subprocess
import sys
from collections.abc import Sequence
from typing import NamedTuple

ROOT = pathlib.Path(__file__).resolve().parents[2]
# How long a script may take at most, in seconds.
PATIENCE = 60
PROGRAM = ROOT / "crates/script_program/out/script_program"
SOURCE_OF_JOBS = ROOT / "crates/worked_jobs/src/jobs.rt"


class Ran(NamedTuple):
    """How a script ended: its status, what it printed, and what it said on standard error."""

    status: int
    printed: str
    said: str


def build() -> None:
    """Builds the program unless it is newer than every source."""
    if PROGRAM.exists():
        built = PROGRAM.stat().st_mtime
        if all(it.stat().st_mtime <= built for it in ROOT.glob("crates/*/src/**/*.rt")):
            return
    print(f"{PROGRAM.relative_to(ROOT)} is not there, or older than a source: `make build` proves and builds it", file=sys.stderr)
    subprocess.run(["make", "-s", "build"], cwd=ROOT, check=True)


def run(words: Sequence[str], text: str) -> Ran:
    """Runs a script, for a minute at most, by these words."""
    ran = subprocess.run([PROGRAM, *words], input=text, capture_output=True, text=True, timeout=PATIENCE)
    return Ran(ran.returncode, ran.stdout, ran.stderr)


def line_of(value: object) -> str:
    """A value as a line, without its newline."""
    return json.dumps(value, separators=(",", ":"), sort_keys=True)


def worked_jobs() -> dict[str, dict]:
    """Returns the jobs by their names, as they stand in `worked_jobs`."""
    job = re.compile(
        r"pub const (\w+): JobText = JobText \{\s*"
        r"args: \[([^\]]*)\],\s*fuel: ([\d_]+),\s*procs: r#\"(.*?)\"#,\s*\};",
        re.S,
    )
    with open(SOURCE_OF_JOBS) as it:
        found = job.findall(it.read())
    return {
        name: {"args": json.loads(f"[{args}]"), "fuel": int(fuel.replace("_", "")), "procs": json.loads(procs)}
        for name, args, fuel, procs in found
    }


def tenant(slots: int, reserved: int, **more: object) -> str:
    """The first line: a tenant with room for 200 open rows and 10,000 entries, unless told otherwise."""
    members = {"name": "acme", "priority": "normal", "reserved": reserved, "rows": 200, "slots": slots, "steps": 10_000}
    return line_of({"tenant": {**members, **more}})


def ask(op: str, **members: object) -> str:
    """The step of a request."""
    return line_of({"request": {"op": op, **members}, "step": "ask"})


def submit(job: dict) -> str:
    return ask("submit", job=job)


def execute(job: dict) -> str:
    return ask("execute", job=job)


def poll(job: int) -> str:
    return ask("poll", job=job)


def collect(job: int) -> str:
    return ask("collect", job=job)


def take(job: int) -> str:
    """A collect that releases the job."""
    return ask("collect", job=job, release=True)


def release(job: int) -> str:
    return ask("release", job=job)


def cancel(job: int) -> str:
    return ask("cancel", job=job)


def cells(key: int) -> str:
    return ask("cells", key=key)


def arrive(slot: int) -> str:
    """The step of a worker that comes to a slot."""
    return line_of({"slot": slot, "step": "arrive"})


def advance(slot: int) -> str:
    """The step of a slot that advances."""
    return line_of({"slot": slot, "step": "advance"})


RETIRE, ARENA = ask("retire"), ask("arena")

RAN, FREED, LEFT, IDLE, NOTHING, FULL, PENDING, BAD_STEP = (
    line_of({"moved": it}) for it in ("ran", "freed", "left", "idle", "none", "full", "pending", "bad_step"))


def arrived(row: int) -> str:
    return line_of({"moved": "arrived", "row": row})


def nested(row: int) -> str:
    return line_of({"moved": "nested", "row": row})


def made(job: int) -> str:
    """The reply to a job that waits."""
    return line_of({"job": job})


def placed(job: int, slot: int) -> str:
    """The reply to a job that is on a slot."""
    return line_of({"job": job, "slot": slot})


def released(job: int) -> str:
    return line_of({"released": job})


def first(job: int, is_first: bool) -> str:
    """The reply to a cancel."""
    return line_of({"first": is_first, "job": job})


def running(job: int) -> str:
    return line_of({"job": job, "status": "running"})


def canceled(job: int) -> str:
    return line_of({"job": job, "status": "canceled"})


def complete(job: int, value: int) -> str:
    return line_of({"job": job, "status": "complete", "value": value})


def fault(job: int, number: int) -> str:
    return line_of({"fault": number, "job": job, "status": "fault"})


def cell(key: int, count: int, total: int) -> str:
    """The reply for the cells of a key."""
    return line_of({"count": count, "key": key, "sum": total})


def epoch(number: int) -> str:
    """The reply to a retire."""
    return line_of({"epoch": number})


def limits(priority: str, reserved: int, slots: int) -> str:
    """The reply for the arena."""
    return line_of({"priority": priority, "reserved": reserved, "slots": slots})


def error(code: int, name: str) -> str:
    return line_of({"code": code, "error": name})


BAD_JSON, BAD_REQUEST, BAD_PROGRAM = error(2, "bad_json"), error(3, "bad_request"), error(4, "bad_program")
UNKNOWN_JOB, JOB_LIMIT, HISTORY_FULL = error(6, "unknown_job"), error(7, "job_limit"), error(8, "history_full")
TASK_LIMIT, BUSY, LINE_TOO_LONG = error(10, "task_limit"), error(12, "busy"), error(1, "line_too_long")
