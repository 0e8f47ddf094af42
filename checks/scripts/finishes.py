"""Dumps whose ends are missing or damaged, as `arena-script finish` finishes them. What it prints is judged by
`arena-script check`, and by the second evaluator (`checks/evaluator`), which shares nothing with it.
"""
import dataclasses
import json
import random
import subprocess
import sys
from collections.abc import Iterator

from script import PATIENCE, PROGRAM, ROOT, Ran, complete, fault, line_of, run, running, worked_jobs

sys.path.append(str(ROOT / "checks/evaluator"))

from tenant import Tenant

WORKED = worked_jobs()
# A job, and the reply to a poll of it once it has an outcome: the same however it is scheduled.
JOBS = [("FIB", lambda job: complete(job, 8)), ("UNUSED", lambda job: complete(job, 1)),
        ("ZERO_DIVISOR", lambda job: fault(job, 1)), ("FIB", lambda job: complete(job, 8))]
LIMITS = {"name": "acme", "priority": "normal", "reserved": 1, "rows": 200, "slots": 3, "steps": 10_000}
MASTERS = {**LIMITS, "reserved": 3}
"""A tenant without slots for workers: what is submitted waits for ever."""
NO_DUMP, WRONG = Ran(2, "", "arena-script: config\n"), Ran(2, "", "arena-script: history\n")
BLOCK = 4096
SEED = 66


def ask(op: str, **members: object) -> dict:
    return {"request": {"op": op, **members}, "step": "ask"}


def slot_step(step: str, slot: int) -> dict:
    return {"slot": slot, "step": step}


def steps() -> list[dict]:
    """Four jobs, of which none has an outcome yet: one is on the reserved slot, and workers began others."""
    jobs = [WORKED[name] for name, _ in JOBS]
    submits = [ask("submit", job=job) for job in jobs[:-1]]
    return [*submits, slot_step("arrive", 1), *[slot_step("advance", 1)] * 5, ask("execute", job=jobs[-1]),
            *[slot_step("advance", 0)] * 12, slot_step("arrive", 2), *[slot_step("advance", 2)] * 7, ask("poll", job=1),
            ask("retire"), ask("poll", job=9), *[slot_step("advance", 1)] * 4]


def answer_of(tenant: Tenant, step: dict) -> dict | None:
    """What the second evaluator answers to a step; None for a collect that waits."""
    if step["step"] == "ask":
        return tenant.ask(step["request"])
    return tenant.arrive(step["slot"]) if step["step"] == "arrive" else tenant.advance(step["slot"])


def entries_of(limits: dict, taken: list[dict]) -> Iterator[str]:
    """The lines of the entries among some steps, by the second evaluator."""
    tenant = Tenant(limits)
    for step in taken:
        before, answer = tenant.entries, answer_of(tenant, step)
        if tenant.entries > before:
            yield line_of({**step, "reply": answer} if step["step"] == "ask" else {**step, **answer})


@dataclasses.dataclass
class Dump:
    """A dump as it was before something happened to it."""

    limits: dict
    taken: list[dict] = dataclasses.field(default_factory=steps)

    def __post_init__(self) -> None:
        self.lines = [line_of({"tenant": self.limits}), *entries_of(self.limits, self.taken)]

    def data(self) -> bytes:
        return "".join(line + "\n" for line in self.lines).encode()


def finish(data: bytes) -> Ran:
    """Gives bytes to the program, for a minute at most."""
    ran = subprocess.run([PROGRAM, "finish"], input=data, capture_output=True, timeout=PATIENCE)
    return Ran(ran.returncode, ran.stdout.decode(errors="replace"), ran.stderr.decode(errors="replace"))


def whole_lines(dump: Dump, data: bytes) -> int:
    """How many lines of a dump its torn bytes begin with. The last one is whole only with its newline."""
    pairs = zip(data.split(b"\n")[:-1], dump.lines, strict=False)
    return next((number for number, (part, line) in enumerate(pairs) if part != line.encode()),
                min(data.count(b"\n"), len(dump.lines)))


def wrong_moves(tenant: Tenant, lines: list[str]) -> Iterator[str]:
    """Yields each line that is no advance, or not as the second evaluator answers it."""
    for line in lines:
        step = json.loads(line)
        given = {"slot": step.get("slot"), "step": "advance"}
        if step != {**given, **(answer_of(tenant, given) or {})}:
            yield f"printed {line}"


def wrong_outcomes(tenant: Tenant, may_run: bool) -> Iterator[str]:
    """Yields each job that is there and has another outcome than it must have."""
    for job, (name, expected) in enumerate(JOBS, 1):
        found = line_of(tenant.ask({"job": job, "op": "poll"}))
        allowed = [expected(job), line_of({"code": 6, "error": "unknown_job"}), *[running(job)] * may_run]
        if found not in allowed:
            yield f"{name}: {found}"


def differing(dump: Dump, data: bytes, whole: int, may_run: bool = False) -> Iterator[str]:
    """Yields how the finished dump of some bytes is wrong, which begin with so many whole lines of a dump."""
    found = finish(data)
    lines = found.printed.splitlines()
    if (found.status, found.said) != (0, ""):
        yield f"it ended with {found.status}: {found.said}"
    elif lines[:whole] != dump.lines[:whole]:
        yield "it does not begin with what was whole"
    elif run(["check"], found.printed) != (0, "yes\n", ""):
        yield "its check is not yes"
    else:
        tenant = Tenant(dump.limits)
        for step in map(json.loads, lines[1:whole]):
            answer_of(tenant, {name: step[name] for name in ("request", "slot", "step") if name in step})
        yield from wrong_moves(tenant, lines[whole:])
        tenant.config = {**dump.limits, "steps": 1_048_576}  # polls have room, too
        yield from wrong_outcomes(tenant, may_run)


def tails(rest: bytes) -> Iterator[tuple[str, bytes]]:
    """What may stand behind a cut: nothing, zeros, random bytes, and the rest with zeros in it."""
    drawn = random.Random(SEED)
    yield "nothing", b""
    yield "zeros", bytes(BLOCK)
    yield "random bytes", drawn.randbytes(BLOCK)
    yield "a hole", bytes(min(len(rest), 40)) + rest[40:]


def cut_dumps(dump: Dump) -> Iterator[str]:
    """Yields what is wrong of a dump that is cut within its first line, at each line's end, or within a line. What stands
    behind the cut goes round.
    """
    data = dump.data()
    first = data.index(b"\n") + 1
    for at in (0, 1, first // 2, first - 1):
        for name, tail in tails(data[at:]):
            if (found := finish(data[:at] + tail)) != NO_DUMP:
                yield f"cut at {at}, {name} behind it: {found}"
    ends = [at for at, byte in enumerate(data, 1) if byte == ord("\n")]
    for number, at in enumerate(sorted({*ends, *(at + 7 for at in ends[:-1]), *(at - 1 for at in ends[1:])})):
        name, tail = list(tails(data[at:]))[number % 4]
        torn = data[:at] + tail
        for wrong in differing(dump, torn, whole_lines(dump, torn)):
            yield f"cut at {at}, {name} behind it: {wrong}"


def full_histories() -> Iterator[str]:
    """Yields what is wrong of histories that fill before all jobs have outcomes."""
    entries = len(Dump(LIMITS).lines) - 1
    for more in (0, 1, 9):
        dump = Dump({**LIMITS, "steps": entries + more})
        found = finish(dump.data()).printed
        if len(found.splitlines()) != 1 + entries + more:
            yield f"room for {more} more: {len(found.splitlines())} lines"
        for wrong in differing(dump, dump.data(), len(dump.lines), may_run=True):
            yield f"room for {more} more: {wrong}"


def unchanged_dumps() -> Iterator[str]:
    """Yields each dump with nothing to do that was changed: one that is finished, one without slots for workers whose
    jobs wait for ever, and one without entries.
    """
    finished = finish(Dump(LIMITS).data()).printed
    waiting = Dump(MASTERS, [ask("submit", job=WORKED["FIB"])])
    for text in (finished, waiting.data().decode(), Dump(LIMITS, []).data().decode()):
        if (found := finish(text.encode())) != (0, text, ""):
            yield f"{text[:100]}: {found}"


def wrong_dumps() -> Iterator[str]:
    """Yields each dump that was finished, although its tenant answers one of its entries otherwise."""
    lines = Dump(LIMITS).lines
    for number in (1, 4):
        others = [*lines[:number], *lines[number + 1:]]
        if (found := finish("".join(line + "\n" for line in others).encode())) != WRONG:
            yield f"without line {number + 1}: {found}"


def differing_finishes() -> Iterator[str]:
    """Yields all that is wrong."""
    yield from cut_dumps(Dump(LIMITS))
    yield from full_histories()
    yield from unchanged_dumps()
    yield from wrong_dumps()
