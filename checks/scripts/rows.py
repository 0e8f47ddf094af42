"""Small scripts of one tenant. Each step stands beside the line that it prints; the lines were worked out by
hand from the rules, and not taken from a run."""
import json

from script import (
    ARENA, BAD_PROGRAM, BAD_REQUEST, BUSY, FREED, FULL, HISTORY_FULL, IDLE, JOB_LIMIT, LEFT, NOTHING, PENDING, RAN,
    RETIRE, ROOT, TASK_LIMIT, UNKNOWN_JOB, advance, arrive, arrived, ask, cancel, canceled, cell, cells, collect,
    complete, epoch, execute, fault, first, limits, line_of, made, nested, placed, poll, release, released, running,
    submit, take, tenant, worked_jobs)

JOBS = worked_jobs()
FIRST, FIB, UNUSED, CANCEL_THEN_WAIT, CLASSIC, NINE = (
    JOBS[it] for it in ("FIRST", "FIB", "UNUSED", "CANCEL_THEN_WAIT", "CLASSIC", "NINE"))
ISOLATED, PLAIN, POSTED, STOLEN, NESTED = (JOBS[it] for it in ("ISOLATED", "PLAIN", "POSTED", "STOLEN", "NESTED"))
UNWAITED, CHAIN, SPIN, NOT_VALID = (JOBS[it] for it in ("UNWAITED", "CHAIN", "SPIN", "NOT_VALID"))
WRAP, LEAST_BY_MINUS_ONE, ZERO_DIVISOR, HALF = (
    JOBS[it] for it in ("WRAP", "LEAST_BY_MINUS_ONE", "ZERO_DIVISOR", "HALF"))

ISOLATED_WAITER = [
    (execute(ISOLATED), placed(1, 0)),
    (advance(0), RAN),
    (advance(0), RAN),
    (advance(0), RAN),
    (arrive(1), arrived(3)),
    (submit(NINE), made(2)),
    (advance(0), IDLE),
    (advance(1), RAN),
    (advance(0), RAN),
    (advance(0), RAN),
    (advance(0), RAN),
    (advance(0), FREED),
    (collect(1), complete(1, 5)),
]

PLAIN_WAITER = [
    (execute(PLAIN), placed(1, 0)),
    (advance(0), RAN),
    (advance(0), RAN),
    (arrive(1), arrived(2)),
    (submit(NINE), made(2)),
    (advance(0), nested(3)),
    (advance(0), RAN),
    (advance(0), RAN),
    (advance(1), RAN),
    (advance(0), RAN),
    (advance(0), RAN),
    (advance(0), FREED),
    (collect(1), complete(1, 9)),
]

POST_OUTSIDE = [
    (execute(POSTED), placed(1, 0)),
    (advance(0), RAN),
    (advance(0), RAN),
    (advance(0), RAN),
    (arrive(1), arrived(3)),
    (advance(0), RAN),
    (advance(0), IDLE),
    (advance(1), RAN),
    (advance(0), RAN),
    (advance(0), RAN),
    (advance(0), RAN),
    (advance(0), FREED),
    (collect(1), PENDING),
    (advance(1), nested(4)),
    (advance(1), RAN),
    (advance(1), RAN),
    (collect(1), complete(1, 5)),
    (advance(1), LEFT),
    (cells(0), cell(0, 2, 14)),
]

STOLEN_TASK = [
    (execute(STOLEN), placed(1, 0)),
    (advance(0), RAN),
    (advance(0), RAN),
    (advance(0), RAN),
    (arrive(1), arrived(3)),
    (advance(1), RAN),
    (advance(1), RAN),
    (advance(0), RAN),
    (advance(0), RAN),
    (advance(0), RAN),
    (advance(0), FREED),
    (collect(1), complete(1, 5)),
    (cells(0), cell(0, 2, 14)),
]

INNER_REGION = [
    (submit(NESTED), made(1)),
    (arrive(0), arrived(1)),
    (advance(0), RAN),
    (advance(0), RAN),
    (arrive(1), arrived(3)),
    (advance(1), RAN),
    (advance(1), RAN),
]

INNER_LEFT = [
    *INNER_REGION,
    (advance(0), IDLE),
    (advance(1), nested(5)),
    (advance(1), RAN),
    (advance(1), RAN),
    (advance(1), RAN),
    (advance(1), RAN),
    (advance(0), RAN),
    (advance(0), RAN),
    (advance(0), RAN),
    (poll(1), complete(1, 9)),
]

INNER_TAKEN = [
    *INNER_REGION,
    (advance(0), nested(5)),
    (advance(0), RAN),
    (advance(1), RAN),
    (advance(1), RAN),
    (advance(1), RAN),
    (advance(0), RAN),
    (advance(0), RAN),
    (advance(0), RAN),
    (poll(1), complete(1, 9)),
]

# A name, the tenant, and its steps.


def by_arrival(steps):
    """The same steps where the job is submitted and a worker comes to slot 0, which is free once no row waits."""
    (execution, _), *rest = steps
    job = json.loads(execution)["request"]["job"]
    return [(submit(job), made(1)), (arrive(0), arrived(1)), *((step, RAN if line == FREED else line) for step, line in rest)]


ROWS = [
    ("the first job is complete", tenant(1, 0), [
        (submit(FIRST), made(1)),
        (arrive(0), arrived(1)),
        (advance(0), RAN),
        (poll(1), complete(1, 7)),
    ]),
    ("a job without end spends its fuel", tenant(1, 0), [
        (submit(SPIN), made(1)),
        (arrive(0), arrived(1)),
        (advance(0), RAN),
        (poll(1), running(1)),
        (advance(0), RAN),
        (poll(1), fault(1, 2)),
    ]),
    ("a job that is not valid is refused", tenant(1, 0), [
        (submit(NOT_VALID), BAD_PROGRAM),
        (submit(FIRST), made(1)),
        (ARENA, limits("normal", 0, 1)),
    ]),
    ("a group is used though its task is done", tenant(2, 1), [
        (execute(UNWAITED), placed(1, 0)),
        (advance(0), RAN),
        (arrive(1), arrived(2)),
        (advance(1), RAN),
        (advance(0), FREED),
        (collect(1), fault(1, 5)),
    ]),
    ("a root waits while the reserved slot is busy", tenant(2, 1), [
        (execute(FIRST), placed(1, 0)),
        (execute(FIRST), made(2)),
        (advance(0), FREED),
        (arrive(1), arrived(2)),
        (advance(1), RAN),
        (collect(2), complete(2, 7)),
        (collect(3), UNKNOWN_JOB),
    ]),
    ("a cancelled job drops nothing that runs", tenant(1, 0), [
        (submit(FIRST), made(1)),
        (arrive(0), arrived(1)),
        (cancel(1), first(1, True)),
        (cancel(1), first(1, False)),
        (poll(1), running(1)),
        (advance(0), RAN),
        (poll(1), canceled(1)),
        (cancel(1), first(1, False)),
    ]),
    ("an isolated waiter keeps its cell", tenant(2, 1), ISOLATED_WAITER),
    ("an isolated waiter keeps its cell, within", tenant(2, 1, isolation="within"), ISOLATED_WAITER),
    ("a plain waiter may run a task that overwrites it", tenant(2, 1), PLAIN_WAITER),
    ("a post is outside the region that makes it", tenant(2, 1), POST_OUTSIDE),
    ("a post is outside the region that makes it, within", tenant(2, 1, isolation="within"), POST_OUTSIDE),
    ("a task of the region runs on another slot", tenant(2, 1), STOLEN_TASK),
    ("a task of the region runs on another slot, within", tenant(2, 1, isolation="within"), STOLEN_TASK),
    ("an isolated waiter keeps its cell, by arrival", tenant(2, 0), by_arrival(ISOLATED_WAITER)),
    ("a plain waiter may run a task that overwrites it, by arrival", tenant(2, 0), by_arrival(PLAIN_WAITER)),
    ("a post is outside the region that makes it, by arrival", tenant(2, 0), by_arrival(POST_OUTSIDE)),
    ("a task of the region runs on another slot, by arrival", tenant(2, 0), by_arrival(STOLEN_TASK)),
    ("a waiter leaves the rows of an inner region", tenant(2, 0), INNER_LEFT),
    ("a waiter takes the rows of an inner region, within", tenant(2, 0, isolation="within"), INNER_TAKEN),
    ("retired jobs and their cells are gone", tenant(1, 0), [
        (submit(NINE), made(1)),
        (arrive(0), arrived(1)),
        (RETIRE, BUSY),
        (advance(0), RAN),
        (advance(0), RAN),
        (cells(0), cell(0, 1, 9)),
        (RETIRE, epoch(1)),
        (poll(1), UNKNOWN_JOB),
        (cells(0), cell(0, 0, 0)),
        (submit(FIRST), made(2)),
        (RETIRE, BUSY),
        (advance(0), nested(2)),
        (advance(0), RAN),
        (poll(2), complete(2, 7)),
        (RETIRE, epoch(2)),
    ]),
    ("a released job is gone, and its cells stay", tenant(1, 0), [
        (submit(NINE), made(1)),
        (release(1), BUSY),
        (take(1), PENDING),
        (arrive(0), arrived(1)),
        (advance(0), RAN),
        (advance(0), RAN),
        (release(1), released(1)),
        (poll(1), UNKNOWN_JOB),
        (release(1), UNKNOWN_JOB),
        (cells(0), cell(0, 1, 9)),
        (submit(FIRST), made(2)),
        (advance(0), nested(2)),
        (advance(0), RAN),
        (take(2), complete(2, 7)),
        (collect(2), UNKNOWN_JOB),
        (RETIRE, epoch(1)),
    ]),
    ("a job that was released counts no more", tenant(1, 1, rows=1), [
        step for job in range(1, 300) for step in [
            (execute(FIRST), placed(job, 0)), (advance(0), FREED), (take(job), complete(job, 7))]
    ]),
    ("a full history refuses to release", tenant(1, 0, steps=3), [
        (submit(FIRST), made(1)),
        (arrive(0), arrived(1)),
        (advance(0), RAN),
        (release(1), HISTORY_FULL),
        (take(1), HISTORY_FULL),
    ]),
    ("a full history refuses to retire", tenant(1, 0, steps=5), [
        (submit(NINE), made(1)),
        (arrive(0), arrived(1)),
        (RETIRE, BUSY),
        (advance(0), RAN),
        (advance(0), RAN),
        (RETIRE, HISTORY_FULL),
    ]),
    ("a full history refuses asks", tenant(1, 0, steps=3), [
        (submit(FIRST), made(1)),
        (arrive(0), arrived(1)),
        (advance(0), RAN),
        (poll(1), HISTORY_FULL),
        (advance(0), LEFT),
    ]),
    ("a full history refuses arrivals", tenant(1, 0, steps=1), [
        (submit(FIRST), made(1)),
        (arrive(0), FULL),
        (poll(1), HISTORY_FULL),
    ]),
    ("hello is refused at a full history too", tenant(1, 1, steps=1), [
        (ARENA, limits("normal", 1, 1)),
        (ARENA, HISTORY_FULL),
        (ask("hello", tenant="acme"), BAD_REQUEST),
    ]),
    ("open rows are within their limit", tenant(1, 0, rows=1), [
        (submit(UNWAITED), made(1)),
        (submit(FIRST), TASK_LIMIT),
        (arrive(0), arrived(1)),
        (advance(0), RAN),
        (poll(1), fault(1, 4)),
    ]),
    ("jobs are within their limit", tenant(1, 0, rows=4_096), [
        *((submit(FIRST), made(number)) for number in range(1, 257)),
        (submit(FIRST), JOB_LIMIT),
    ]),
    ("steps of odd layout", tenant(1, 0), [
        (' { "step" : "ask" , "request" : { "op" : "cells" , "key" : 7 } } ', cell(7, 0, 0)),
        (poll(9), UNKNOWN_JOB),
        (arrive(0), NOTHING),
        (advance(0), LEFT),
    ]),
    ("requests that are none", tenant(1, 0), [
        (ask("hello", tenant="acme"), BAD_REQUEST),
        (ask("submit"), BAD_REQUEST),
        (line_of({"request": 7, "step": "ask"}), BAD_REQUEST),
        (ask("execute", job=7), BAD_PROGRAM),
    ]),
]

# 7 has no remainder by 0.
REM_BY_ZERO = {"args": [7, 0], "fuel": 10, "procs": [[["rem", 2, 0, 1], ["ret", 2]]]}


def published() -> list[tuple[dict, int]]:
    """The jobs of an example that compute what others have published, with its values."""
    jobs, values = ((ROOT / f"examples/serial/published.{it}").read_text().splitlines() for it in ("jsonl", "out"))
    return [(json.loads(job), json.loads(value)["serial"]) for job, value in zip(jobs, values, strict=True)]


# A job, how many advances it is given, and the line that reports it, on a reserved slot and by an arrival.
OUTCOMES = [
    (WRAP, 1, complete(1, -(2**63))),
    (LEAST_BY_MINUS_ONE, 1, complete(1, -(2**63))),
    (ZERO_DIVISOR, 1, fault(1, 1)),
    ({**ZERO_DIVISOR, "fuel": 1}, 1, fault(1, 2)),
    (REM_BY_ZERO, 1, fault(1, 1)),
    ({**REM_BY_ZERO, "args": [7, 4]}, 1, complete(1, 3)),
    (HALF, 1, complete(1, -3)),
    (UNUSED, 20, complete(1, 1)),
    (CLASSIC, 20, complete(1, 9)),
    (UNWAITED, 20, fault(1, 5)),
    (CANCEL_THEN_WAIT, 10, complete(1, 21)),
    (STOLEN, 20, complete(1, 9)),
    (CHAIN, 600, complete(1, 7)),
    ({**CHAIN, "args": [128, 7]}, 600, fault(1, 3)),
    (FIB, 100, complete(1, 8)),
    ({**FIB, "fuel": 172}, 100, complete(1, 8)),
    ({**FIB, "fuel": 171}, 100, fault(1, 2)),
    *((job, 20, complete(1, value)) for job, value in published()),
]

# A way to start it, a job, how many advances it is given, and how often lines of a kind are printed.
COUNTS = [
    ("executed", FIB, 85, {"nested": 24, "ran": 60, "freed": 1}),
    ("arrived", FIB, 86, {"nested": 24, "ran": 61, "left": 1}),
    ("arrived", CHAIN, 600, {"nested": 127}),
]

# A job, and its serial value.
SERIAL = [
    (FIB, {"serial": 8}),
    ({**FIB, "fuel": 172}, {"serial": 8}),
    ({**FIB, "fuel": 171}, {"serial": "none"}),
    ({**CHAIN, "args": [128, 7]}, {"serial": 7}),
    (UNUSED, {"serial": 1}),
    (UNWAITED, {"serial": "none"}),
    (ZERO_DIVISOR, {"serial": "none"}),
    (REM_BY_ZERO, {"serial": "none"}),
    (SPIN, {"serial": "none"}),
    (ISOLATED, {"serial": "not_serial"}),
    (NOT_VALID, {"code": 4, "error": "bad_program"}),
]
