"""Replays a history: which row ran in each entry, what it made, and what ended.

The state holds what is open, the jobs that are not retired or released, and the cells. Each entry costs its instructions and the
rows that it ends: no walk over all rows, and none over the makers of a row. """
from collections.abc import Iterable, Iterator
from typing import Any

from arena.lint import first_fault_of_job
from arena.replies import FaultCode
from arena.trace.dump import Advance, Arrive, Ask, Dump, DumpFault, Entry, Tenant
from arena.trace.machine import NAMES, RUN, SHARED, WAIT, Instr, decode, run_private, wrapped
from arena.trace.model import FaultPlace, Group, Happening, Job, Kind, Move, Row, State, there

# The greatest height of a slot's stack.
HEIGHT = 128


def replay(dump: Dump) -> Iterator[Happening]:
    """What happened in each entry of a dump, in order. Raises DumpFault at the first entry that can't have happened."""
    yield from Replay(dump.tenant, dump.file).run(dump.entries)


class Impossible(Exception):
    """The entry can't have happened in this state."""


class Replay:
    """A tenant that has done nothing yet, and then what its entries made of it.

    `stacks` has for each slot its live rows, the topmost last; `waiting` the rows that wait, by their numbers; `jobs`
    those that are not retired or released; `cells` a number for each key and slot. """

    def __init__(self, tenant: Tenant, file: str = "<dump>") -> None:
        self.tenant, self.file = tenant, file
        self.stacks: list[list[Row]] = [[] for _ in range(tenant.slots)]
        self.waiting: dict[int, Row] = {}
        self.jobs: dict[int, Job] = {}
        self.cells: dict[tuple[int, int], int] = {}
        self.entries = self.epoch = self.rows = self.made_jobs = self.live = 0
        self._shared = {name: getattr(self, f"_do_{name}") for name in NAMES[SHARED:]}

    def run(self, entries: Iterable[Entry]) -> Iterator[Happening]:
        """What happens in each entry, in order. The state changes as this is iterated. Raises DumpFault."""
        for entry in entries:
            try:
                happening = self.step(entry)
            except Impossible as why:
                raise DumpFault(self.file, self.entries + 1, f"this entry can't have happened: {why}; `arena check` "
                                f"says "
                                "which entry is wrong first") from None
            yield happening

    def step(self, entry: Entry) -> Happening:
        """Takes one entry. Raises Impossible."""
        self.entries += 1
        if isinstance(entry, Ask):
            return self._ask(entry)
        if isinstance(entry, Advance) and entry.row is None:
            return self._advance(entry)
        return self._start_waiting(entry)

    def _start_waiting(self, entry: Arrive | Advance) -> Happening:
        row = None if entry.row is None else self.waiting.get(entry.row)
        if row is None:
            raise Impossible(f"no row {entry.row} waits")
        arrives = isinstance(entry, Arrive)
        if arrives and (self.stacks[entry.slot] or entry.slot < self.tenant.reserved):
            raise Impossible(f"slot {entry.slot} is not free for a worker")
        self._start(row, entry.slot)
        return Happening(self.entries, Move.ARRIVED if arrives else Move.NESTED, entry.slot, row, job=row.job)

    # Requests.

    def _ask(self, entry: Ask) -> Happening:
        op, reply = entry.request["op"], entry.reply
        happening = Happening(self.entries, Move.ASKED, op=op, reply=reply)
        if "error" in reply:
            return happening
        if op in ("submit", "execute"):
            self._make_job(entry, happening)
        elif op == "cancel":
            happening.job = self._known(reply)
            if reply.get("first"):
                happening.job.is_cancelled = True
                self._drop(list(happening.job.waiting.values()), happening)
        elif op == "retire":
            if self.live or self.waiting:
                raise Impossible("a row is open")
            self.jobs.clear()
            self.cells.clear()
            self.epoch += 1
        elif op in ("poll", "collect"):
            happening.job = self._known(reply)
            if op == "collect" and entry.request.get("release") is True:
                self._release(happening.job)
        elif op == "release":
            happening.job = self._known({"job": reply.get("released")})
            self._release(happening.job)
        return happening

    def _release(self, job: Job) -> None:
        """Forgets a job, which has its outcome."""
        if job.open:
            raise Impossible(f"job {job.number} has no outcome")
        del self.jobs[job.number]

    def _known(self, reply: dict[str, Any]) -> Job:
        number = reply.get("job")
        if number is None:
            raise Impossible("its reply names no job")
        job = self.jobs.get(number)
        if job is None:
            raise Impossible(f"there is no job {number}")
        return job

    def _make_job(self, entry: Ask, happening: Happening) -> None:
        value, number, slot = entry.request.get("job"), entry.reply.get("job"), entry.reply.get("slot")
        fault = first_fault_of_job(value)
        if fault is not None or value is None:
            raise Impossible(f"its job is not valid, {fault}")
        (x, y), fuel, code = value["args"], value["fuel"], decode(value["procs"])
        self.made_jobs += 1
        if number != self.made_jobs:
            raise Impossible(f"the next job is {self.made_jobs}")
        is_executed = entry.request["op"] == "execute"
        job = Job(number, code, value["procs"], (x, y), fuel, fuel, self.entries, is_executed)
        self.jobs[number] = job
        row = self._make(Kind.ROOT, job, None, None, None, 0, x, y, happening)
        happening.row, happening.job = row, job
        if slot is not None:
            if not 0 <= slot < self.tenant.reserved or self.stacks[slot]:
                raise Impossible(f"slot {slot} is not free for an execute")
            happening.slot = slot
            self._start(row, slot)

    # Rows.

    def _make(self, kind: Kind, job: Job, maker: Row | None, group: int | None, made_on: int | None, proc: int,
              x: int, y: int, happening: Happening) -> Row:
        self.rows += 1
        is_cancelled = maker is not None and maker.is_cancelled
        row = Row(self.rows, kind, job, maker, group, made_on, proc, [x, y, 0, 0, 0, 0, 0, 0], self.entries, 0,
                  is_cancelled)
        job.open += 1
        job.rows += 1
        if kind is not Kind.REGION:
            self.waiting[row.number] = job.waiting[row.number] = row
        happening.made = row
        return row

    def _start(self, row: Row, slot: int) -> None:
        stack, job = self.stacks[slot], row.job
        if row.kind is not Kind.REGION:
            del self.waiting[row.number], job.waiting[row.number]
        stack.append(row)
        self.live += 1
        row.state, row.slot, row.height, row.started = State.LIVE, slot, len(stack), self.entries
        if job.started is None:
            job.started = self.entries
        if row.height > job.highest:
            job.highest = row.height
        if row.made_on is not None and row.made_on != slot:
            job.taken += 1

    def _end(self, row: Row, state: State, happening: Happening, value: int | None = None) -> None:
        job = row.job
        if row.state is State.LIVE:
            self.live -= 1
        else:
            del self.waiting[row.number], job.waiting[row.number]
        row.state, row.ended, row.value = state, self.entries, value
        if row.kind is Kind.TASK:
            self._leave_group(row, there(row.maker).group_of(there(row.group)))
        elif row.kind is Kind.ROOT:
            job.value = value
        elif row.kind is Kind.REGION:
            there(row.maker).region = None
        if row.path > job.span:
            job.span = row.path
        job.open -= 1
        if job.open == 0:
            job.ended = self.entries
        happening.ended.append(row)

    def _leave_group(self, row: Row, group: Group) -> None:
        group.members.pop(row.number, None)
        if row.state is State.RETURNED:
            group.total += there(row.value)
        if row.state is not State.DROPPED and row.path > group.longest:
            group.longest = row.path

    def _drop(self, rows: list[Row], happening: Happening) -> None:
        for row in rows:
            self._end(row, State.DROPPED, happening)

    def _fault(self, slot: int, code: FaultCode, happening: Happening) -> None:
        """Ends the top row and the regions below it, with the first row that is no region, and stops the job."""
        stack = self.stacks[slot]
        top = stack[-1]
        happening.fault = code
        if top.job.fault is None:
            top.job.fault = FaultPlace(code, self.entries, top.number, top.proc, top.at)
        while stack:
            row = stack.pop()
            self._end(row, State.FAULTED, happening)
            if row.kind is not Kind.REGION:
                break
        self._drop(list(top.job.waiting.values()), happening)

    # Advances.

    def _advance(self, entry: Advance) -> Happening:
        slot = entry.slot
        stack = self.stacks[slot]
        if not stack:
            raise Impossible(f"nothing is live on slot {slot}")
        row = stack[-1]
        happening = Happening(self.entries, Move.RAN, slot, row, since=row.at, job=row.job)
        self._execute(row, slot, happening)
        happening.until = row.at
        if entry.freed != (not stack and slot < self.tenant.reserved):
            raise Impossible(f"slot {slot} {'has rows' if stack else 'has none'} afterwards")
        return happening

    def _execute(self, row: Row, slot: int, happening: Happening) -> None:
        job, code = row.job, row.job.code[row.proc]
        ran = run_private(code, row.registers, row.at, slot, self.tenant.slots)
        row.at = ran.at
        instr = code.instrs[ran.at]
        shared = None if ran.divided_by_zero or ran.count == RUN or instr.op < SHARED else instr
        if shared is not None and shared.op == WAIT and row.groups and row.groups[shared.z].members:
            if not ran.count:
                return self._overflow(row, slot, happening)
            shared = None
        cost = happening.cost = ran.count if shared is None else ran.count + 1
        row.cost += cost
        row.path += cost
        job.work += cost
        job.runs += 1
        if row.path > job.span:
            job.span = row.path
        if cost > job.left:
            job.left = 0
            return self._fault(slot, FaultCode.FUEL, happening)
        job.left -= cost
        if ran.divided_by_zero:
            return self._fault(slot, FaultCode.DIVISION, happening)
        if shared is not None:
            happening.shared = NAMES[shared.op]
            fault = self._shared[happening.shared](row, shared, happening)
            if fault is not None:
                self._fault(slot, fault, happening)

    def _overflow(self, row: Row, slot: int, happening: Happening) -> None:
        """A row that waits and has executed nothing: its slot would start another row, and is too high for it."""
        if len(self.stacks[slot]) < HEIGHT:
            raise Impossible(f"the top row of slot {slot}, {row.number}, waits for a group")
        row.job.runs += 1
        self._fault(slot, FaultCode.TOO_DEEP, happening)

    # Shared instructions. Each returns its fault, or none.

    def _is_full(self) -> bool:
        return self.live + len(self.waiting) >= self.tenant.rows

    def _do_spawn(self, row: Row, instr: Instr, happening: Happening) -> FaultCode | None:
        if self._is_full():
            return FaultCode.TASK_LIMIT
        registers, group = row.registers, row.group_of(instr.x)
        new = self._make(Kind.TASK, row.job, row, instr.x, row.slot, instr.y, registers[instr.z], registers[instr.w],
                         happening)
        new.path = row.path
        group.members[new.number] = new
        group.is_used = True
        row.at += 1
        if group.is_cancelled or new.is_cancelled or row.job.is_stopped:
            self._drop([new], happening)
        return None

    def _do_post(self, row: Row, instr: Instr, happening: Happening) -> FaultCode | None:
        if self._is_full():
            return FaultCode.TASK_LIMIT
        registers = row.registers
        new = self._make(Kind.POST, row.job, None, None, None, instr.x, registers[instr.y], registers[instr.z],
                         happening)
        new.path = row.path
        row.at += 1
        if row.job.is_stopped:
            self._drop([new], happening)
        return None

    def _do_isolate(self, row: Row, instr: Instr, happening: Happening) -> FaultCode | None:
        if len(self.stacks[there(row.slot)]) == HEIGHT:
            return FaultCode.TOO_DEEP
        if self._is_full():
            return FaultCode.TASK_LIMIT
        registers = row.registers
        new = self._make(Kind.REGION, row.job, row, None, row.slot, instr.y, registers[instr.z], registers[instr.w],
                         happening)
        new.path = row.path
        row.region = new
        self._start(new, there(row.slot))
        return None

    def _do_wait(self, row: Row, instr: Instr, _happening: Happening) -> None:
        group = row.group_of(instr.z)
        row.registers[instr.x] = wrapped(group.total)
        row.registers[instr.y] = 2 if group.is_cancelled or row.is_cancelled or row.job.is_stopped else 1
        if group.longest >= row.path:
            row.path = group.longest + 1  # the wait itself comes after what it waited for
        there(row.groups)[instr.z] = Group()
        row.at += 1

    def _do_cancel(self, row: Row, instr: Instr, happening: Happening) -> None:
        row.at += 1
        group = row.group_of(instr.x)
        if group.is_cancelled:
            return
        group.is_cancelled = True
        todo, waiting = list(group.members.values()), []
        while todo:
            reached = todo.pop()
            if reached.is_cancelled:
                continue
            reached.is_cancelled = True
            if reached.state is State.WAITING:
                waiting.append(reached)
            if reached.region is not None:
                todo.append(reached.region)
            for inner in reached.groups or ():
                todo.extend(inner.members.values())
        self._drop(sorted(waiting, key=lambda it: it.number), happening)

    def _do_ask(self, row: Row, instr: Instr, _happening: Happening) -> None:
        row.registers[instr.x] = int(row.is_cancelled or row.job.is_stopped)
        row.at += 1

    def _do_load(self, row: Row, instr: Instr, _happening: Happening) -> None:
        row.registers[instr.x] = self.cells.setdefault((instr.y, there(row.slot)), 0)
        row.at += 1

    def _do_store(self, row: Row, instr: Instr, _happening: Happening) -> None:
        self.cells[instr.x, there(row.slot)] = row.registers[instr.y]
        row.at += 1

    def _cells_of(self, key: int) -> list[int]:
        return [value for (of, _), value in self.cells.items() if of == key]

    def _do_sum(self, row: Row, instr: Instr, _happening: Happening) -> None:
        row.registers[instr.x] = wrapped(sum(self._cells_of(instr.y)))
        row.at += 1

    def _do_count(self, row: Row, instr: Instr, _happening: Happening) -> None:
        row.registers[instr.x] = len(self._cells_of(instr.y))
        row.at += 1

    def _do_ret(self, row: Row, instr: Instr, happening: Happening) -> FaultCode | None:
        if row.groups and any(group.is_used for group in row.groups):
            return FaultCode.MISSING_WAIT
        value = row.registers[instr.x]
        stack = self.stacks[there(row.slot)]
        stack.pop()
        if row.kind is Kind.REGION:
            below = stack[-1]
            below.registers[row.job.code[below.proc].instrs[below.at].x] = value
            below.at += 1
            below.path = max(below.path, row.path)
        self._end(row, State.RETURNED, happening, value)
        return None
