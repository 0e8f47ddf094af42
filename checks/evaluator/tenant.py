"""A tenant as `docs/PROTOCOL.md` describes it, written as plainly as can be: all rows that were ever made stay in a
list, and each question is answered by a walk over it.
"""
from collections.abc import Iterator, Sequence
from dataclasses import dataclass, field

from private import PrivateRun, wrapped

ERRORS = {1: "line_too_long", 2: "bad_json", 3: "bad_request", 4: "bad_program", 6: "unknown_job", 7: "job_limit",
          8: "history_full", 10: "task_limit", 12: "busy"}
JOBS, HEIGHT = 256, 128
FUEL, DEPTH, ROWS, GROUP = 2, 3, 4, 5  # the faults, but for the division by zero


@dataclass(eq=False)
class Job:
    procs: list
    fuel: int
    number: int
    is_cancelled: bool = False
    is_retired: bool = False  # or released
    fault: int | None = None


@dataclass(eq=False)
class Group:
    since: int = 0  # its rows have greater numbers
    is_cancelled: bool = False


@dataclass(eq=False)
class Row:
    number: int
    kind: str  # root, post, task or region
    job: Job
    maker: "Row | None"
    group: int | None
    made_on: int | None
    instrs: list
    registers: list
    at: int = 0
    state: str = "waiting"  # then live; then returned, dropped or faulted
    slot: int | None = None
    value: int | None = None
    groups: list = field(default_factory=lambda: [Group() for _ in range(4)])

    def is_open(self) -> bool:
        """Whether it waits to be started, or is on a slot."""
        return self.state in ("waiting", "live")

    def chain(self) -> Iterator["Row"]:
        """The row, its maker, that row's maker, and so on. Roots and posts have no maker here."""
        row = self
        while row:
            yield row
            row = row.maker

    def regions(self) -> list["Row"]:
        """The regions that it is in, the innermost first; a region is in itself."""
        return [row for row in self.chain() if row.kind == "region"]

    def is_cancelled(self) -> bool:
        """Whether its job has ended early, or a group is cancelled that it or a maker of it is in."""
        groups = (row.maker.groups[row.group] for row in self.chain() if row.kind == "task")
        return self.job.is_cancelled or self.job.fault is not None or any(group.is_cancelled for group in groups)


class Tenant:
    """A tenant that has done nothing yet."""

    def __init__(self, config: dict) -> None:
        """A tenant of these settings, as a configuration has them."""
        self.config = config
        self.rows, self.jobs, self.cells = [], [], {}
        self.entries = self.epoch = 0
        # For each slot the rows that are live on it, the topmost last.
        self.stacks = [[] for _ in range(config["slots"])]

    def is_full(self) -> bool:
        """Whether the history is at its limit."""
        return self.entries == self.config["steps"]

    def has_room(self) -> bool:
        """Whether one more row may be open."""
        return sum(row.is_open() for row in self.rows) < self.config["rows"]

    def members(self, row: Row, group: int) -> list[Row]:
        """The rows of a group since its last completed wait."""
        later = self.rows[row.groups[group].since :]
        return [it for it in later if it.kind == "task" and (it.maker, it.group) == (row, group)]

    def is_blocked(self, row: Row, group: int) -> bool:
        """Whether a wait for a row's group has to wait."""
        return any(it.is_open() for it in self.members(row, group))

    def make(self, kind: str, job: Job, maker: Row | None, group: int | None, made_on: int | None, proc: int,
             args: Sequence[int]) -> Row:
        """A new row, which waits to be started."""
        row = Row(len(self.rows) + 1, kind, job, maker, group, made_on, job.procs[proc], [*args] + [0] * 6)
        self.rows.append(row)
        return row

    def start(self, row: Row, slot: int) -> None:
        """Puts a row on top of a slot."""
        row.state, row.slot = "live", slot
        self.stacks[slot].append(row)

    def pick(self, slot: int) -> Row | None:
        """The row that a slot starts next."""
        rows = [row for row in self.rows if row.state == "waiting"]
        around = self.stacks[slot][-1].regions() if self.stacks[slot] else []
        if around and self.config.get("isolation") == "within":
            rows = [row for row in rows if around[0] in row.regions()]
        elif around:
            rows = [row for row in rows if row.regions()[:1] == around[:1]]
        own = [row for row in rows if row.made_on == slot]
        return own[-1] if own else rows[0] if rows else None

    def settle(self) -> None:
        """What follows each entry: rows that wait in what is cancelled are dropped."""
        for row in self.rows:
            if row.state == "waiting" and row.is_cancelled():
                row.state = "dropped"

    def status(self, job: Job) -> dict:
        """How far a job is, but for its number."""
        root, *_ = (row for row in self.rows if row.kind == "root" and row.job is job)
        if any(row.is_open() for row in self.rows if row.job is job):
            return {"status": "running"}
        if job.fault is not None:
            return {"fault": job.fault, "status": "fault"}
        return {"status": "canceled"} if job.is_cancelled else {"status": "complete", "value": root.value}

    # Requests.

    def ask(self, request: dict) -> dict | None:
        """The reply to a request, none if it stays pending."""
        refused = 3 if request["op"] == "hello" else 8 if self.is_full() else None
        if refused:
            return error(refused)
        reply = getattr(self, "ask_" + request["op"])(request)
        if reply is not None:
            self.entries += 1
            self.settle()
        return reply

    def ask_submit(self, request: dict) -> dict:
        if sum(not job.is_retired for job in self.jobs) == JOBS:
            return error(7)
        if not self.has_room():
            return error(10)
        asked = request["job"]
        self.jobs.append(Job(asked["procs"], asked["fuel"], len(self.jobs) + 1))
        self.make("root", self.jobs[-1], None, None, None, 0, asked["args"])
        return {"job": len(self.jobs)}

    def ask_execute(self, request: dict) -> dict:
        reply = self.ask_submit(request)
        free = [slot for slot in range(self.config["reserved"]) if not self.stacks[slot]]
        if "error" in reply or not free:
            return reply
        self.start(self.rows[-1], free[0])
        return {**reply, "slot": free[0]}

    def known(self, number: int) -> Job | None:
        """The job of a number, if it is there and neither retired nor released."""
        job = self.jobs[number - 1] if 0 < number <= len(self.jobs) else None
        return job if job and not job.is_retired else None

    def ask_poll(self, request: dict) -> dict:
        job = self.known(request["job"])
        return {"job": job.number, **self.status(job)} if job else error(6)

    def ask_collect(self, request: dict) -> dict | None:
        reply = self.ask_poll(request)
        if reply.get("status") == "running":
            return None
        if request.get("release") and "error" not in reply:
            self.known(request["job"]).is_retired = True
        return reply

    def ask_release(self, request: dict) -> dict:
        job = self.known(request["job"])
        if not job:
            return error(6)
        if self.status(job)["status"] == "running":
            return error(12)
        job.is_retired = True
        return {"released": job.number}

    def ask_cancel(self, request: dict) -> dict:
        job = self.known(request["job"])
        if not job:
            return error(6)
        is_first = self.status(job)["status"] == "running" and not job.is_cancelled and job.fault is None
        job.is_cancelled |= is_first
        return {"first": is_first, "job": job.number}

    def cells_of(self, key: int) -> list[int]:
        """The cells of a key on all slots."""
        return [value for (of, _), value in self.cells.items() if of == key]

    def ask_cells(self, request: dict) -> dict:
        cells = self.cells_of(request["key"])
        return {"count": len(cells), "key": request["key"], "sum": wrapped(sum(cells))}

    def ask_arena(self, _request: dict) -> dict:
        return {name: self.config[name] for name in ("priority", "reserved", "slots")}

    def ask_retire(self, _request: dict) -> dict:
        if any(row.is_open() for row in self.rows):
            return error(12)
        for job in self.jobs:
            job.is_retired = True
        self.cells.clear()
        self.epoch += 1
        return {"epoch": self.epoch}

    # Arrivals and advances.

    def arrive(self, slot: int) -> dict:
        """The answer to the arrival of a worker at a slot."""
        row = self.pick(slot)
        if slot < self.config["reserved"] or self.stacks[slot] or not row:
            return moved("none")
        if self.is_full():
            return moved("full")
        self.entries += 1
        self.start(row, slot)
        return moved("arrived", row)

    def advance(self, slot: int) -> dict:
        """The answer to an advance of a slot."""
        if not self.stacks[slot] and slot < self.config["reserved"]:
            return moved("idle")
        row = self.stacks[slot][-1] if self.stacks[slot] else None
        ran = PrivateRun(row, slot, self.config["slots"]) if row else None
        if ran and (ran.count or not self.waits(row, ran)):
            return self.execute(row, ran)
        return self.nest(slot)

    def waits(self, row: Row, ran: PrivateRun) -> bool:
        """Whether a row came to a wait that is blocked."""
        return ran.shared and ran.shared[0] == "wait" and self.is_blocked(row, ran.shared[3])

    def nest(self, slot: int) -> dict:
        """Starts another row on a slot whose top row waits, or on an empty one of a worker."""
        row, stack = self.pick(slot), self.stacks[slot]
        if not row:
            return moved("idle" if stack else "left")
        if self.is_full():
            return moved("full")
        self.entries += 1
        if len(stack) == HEIGHT:
            self.fault(stack[-1], DEPTH)
            return self.after(slot)
        self.start(row, slot)
        return moved("nested", row)

    def execute(self, row: Row, ran: PrivateRun) -> dict:
        """Lets a row execute its private instructions, and then a shared one if it came to one that does not wait."""
        if self.is_full():
            return moved("full")
        self.entries += 1
        is_shared = ran.shared is not None and not self.waits(row, ran)
        cost = ran.count + is_shared
        fault = FUEL if cost > row.job.fuel else ran.fault
        row.job.fuel = max(row.job.fuel - cost, 0)
        if fault is None:
            row.registers, row.at = ran.registers, ran.at
            if is_shared:
                name, *operands = ran.shared
                fault = getattr(self, "do_" + name)(row, *operands)
        if fault is not None:
            self.fault(row, fault)
        return self.after(row.slot)

    def after(self, slot: int) -> dict:
        """The answer to an advance in which a row executed."""
        self.settle()
        return moved("freed" if slot < self.config["reserved"] and not self.stacks[slot] else "ran")

    def fault(self, top: Row, fault: int) -> None:
        """Ends the top row and the regions below it, with the first row that is no region, and cancels the job."""
        if top.job.fault is None:
            top.job.fault = fault
        stack = self.stacks[top.slot]
        while stack:
            row = stack.pop()
            row.state = "faulted"
            if row.kind != "region":
                break

    # Shared instructions. Each returns its fault, or none.

    def do_spawn(self, row: Row, group: int, proc: int, a: int, b: int) -> int | None:
        return self.do_make("task", row, row, group, row.slot, proc, a, b)

    def do_post(self, row: Row, proc: int, a: int, b: int) -> int | None:
        return self.do_make("post", row, None, None, None, proc, a, b)

    def do_make(self, kind: str, row: Row, maker: Row | None, group: int | None, made_on: int | None, proc: int, a: int,
                b: int) -> int | None:
        if not self.has_room():
            return ROWS
        self.make(kind, row.job, maker, group, made_on, proc, (row.registers[a], row.registers[b]))
        row.at += 1

    def do_isolate(self, row: Row, _to: int, proc: int, a: int, b: int) -> int | None:
        if len(self.stacks[row.slot]) == HEIGHT:
            return DEPTH
        if not self.has_room():
            return ROWS
        args = (row.registers[a], row.registers[b])
        self.start(self.make("region", row.job, row, None, row.slot, proc, args), row.slot)

    def do_wait(self, row: Row, to: int, status: int, number: int) -> None:
        group = row.groups[number]
        values = [it.value for it in self.members(row, number) if it.state == "returned"]
        row.registers[to] = wrapped(sum(values))
        row.registers[status] = 2 if group.is_cancelled or row.is_cancelled() else 1
        group.since, group.is_cancelled = len(self.rows), False
        row.at += 1

    def do_cancel(self, row: Row, number: int) -> None:
        row.groups[number].is_cancelled = True
        row.at += 1

    def write(self, row: Row, register: int, value: int) -> None:
        """Ends an instruction that gives a value."""
        row.registers[register] = wrapped(value)
        row.at += 1

    def do_ask(self, row: Row, to: int) -> None:
        self.write(row, to, int(row.is_cancelled()))

    def do_load(self, row: Row, to: int, key: int) -> None:
        self.write(row, to, self.cells.setdefault((key, row.slot), 0))

    def do_store(self, row: Row, key: int, a: int) -> None:
        self.cells[key, row.slot] = row.registers[a]
        row.at += 1

    def do_sum(self, row: Row, to: int, key: int) -> None:
        self.write(row, to, sum(self.cells_of(key)))

    def do_count(self, row: Row, to: int, key: int) -> None:
        self.write(row, to, len(self.cells_of(key)))

    def do_ret(self, row: Row, a: int) -> int | None:
        if any(self.members(row, group) for group in range(4)):
            return GROUP
        row.state, row.value = "returned", row.registers[a]
        stack = self.stacks[row.slot]
        stack.pop()
        if row.kind == "region":
            below = stack[-1]
            self.write(below, below.instrs[below.at][1], row.value)


def error(code: int) -> dict:
    """The reply of an error."""
    return {"code": code, "error": ERRORS[code]}


def moved(how: str, row: Row | None = None) -> dict:
    """The answer to a move, with the row that it started."""
    return {"moved": how, "row": row.number} if row else {"moved": how}
