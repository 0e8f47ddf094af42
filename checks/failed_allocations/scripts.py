"""A script for each word of `arena-script`, with the answers of the second evaluator (`checks/evaluator`)."""
import pathlib
import subprocess
import sys
from collections.abc import Iterator, Sequence

from jobs import (ARENA, MIXED, NO_MEMORY, RETIRE, SEVEN, cancel, cells, collect, execute, hello, line_of, poll,
                  submit, tenant)
from outcomes import Outcome

ROOT = pathlib.Path(__file__).resolve().parents[2]
PROGRAM = ROOT / "crates/script_program/out/script_program"
SECONDS = 30
sys.path.append(str(ROOT / "checks/evaluator"))

from serial import serial_value
from tenant import Tenant, error, moved
from world import World

TENANT = tenant("acme", 2, 1)
WORLD = {"tenants": [TENANT, tenant("beta", 1, 0, "high")], "workers": 2}


def ask(request: dict) -> dict:
    return {"request": request, "step": "ask"}


def arrive(slot: int) -> dict:
    return {"slot": slot, "step": "arrive"}


def advance(slot: int) -> dict:
    return {"slot": slot, "step": "advance"}


def line(name: str, request: dict) -> dict:
    return {"step": "line", "tenant": name, "text": line_of(request)}


def master(slot: int) -> dict:
    return {"slot": slot, "step": "master", "tenant": "acme"}


def push(name: str, slot: int) -> dict:
    return {"slot": slot, "step": "push", "tenant": name}


def worker(step: str, number: int) -> dict:
    return {"step": step, "worker": number}


OWN = [ask(execute(MIXED)), *[advance(0)] * 3, ask(submit(SEVEN)), arrive(1), ask(collect(1)),
       *[advance(0), advance(1)] * 5, *[advance(0)] * 6, *[advance(1)] * 3, ask(collect(1)), ask(cells(0)), ask(RETIRE),
       ask(poll(1)), ask(submit(MIXED)), *[arrive(1), advance(1), advance(1)] * 2, ask(cancel(3)), ask(poll(3)),
       ask(hello("acme")), ask(ARENA), ask(RETIRE)]
# What is left to do then. No other slot has rows.
FINISHED = [advance(1)] * 9
RUN = [line("acme", execute(MIXED)), *[master(0)] * 3, push("acme", 1), line("beta", submit(SEVEN)), push("beta", 0),
       worker("pop", 0), worker("pop", 1), worker("arrive", 0), worker("arrive", 1), line("acme", collect(1)),
       *[master(0), worker("advance", 0), worker("advance", 1)] * 4, *[master(0)] * 7, push("acme", 1),
       worker("pop", 0), worker("arrive", 0), *[worker("advance", 0)] * 3, line("acme", collect(1)),
       line("acme", cells(0)), line("acme", ARENA), line("beta", poll(1)), line("beta", submit(MIXED)),
       line("beta", cancel(2)), line("beta", poll(2)), line("beta", RETIRE), line("beta", poll(1)), push("beta", 0)]
# A job for each kind of answer. The second counts 8 down, and adds 1 by a task each time; the last is no job.
JOBS = [SEVEN, {"args": [8, 0], "fuel": 1000, "procs": [[
    ["jz", 0, 9], ["set", 2, 1], ["sub", 0, 0, 2], ["spawn", 0, 0, 0, 1], ["spawn", 1, 1, 2, 0], ["wait", 3, 4, 0],
    ["wait", 5, 4, 1], ["add", 3, 3, 5], ["ret", 3], ["ret", 1]], [["ret", 0]]]}, MIXED, {**SEVEN, "fuel": 2}, {}]


def tenant_answer(tenant: Tenant, step: dict) -> dict:
    """What the second evaluator answers to a step of a tenant."""
    if step["step"] == "ask":
        return tenant.ask(step["request"]) or moved("pending")
    return tenant.arrive(step["slot"]) if step["step"] == "arrive" else tenant.advance(step["slot"])


def dump(steps: list[dict]) -> Iterator[dict]:
    """A tenant and the entries among some steps of it, as lines of a dump."""
    tenant, entries = Tenant(TENANT), 0
    yield {"tenant": TENANT}
    for step in steps:
        answered = tenant_answer(tenant, step)
        if tenant.entries > entries:
            yield {**step, "reply": answered} if step["step"] == "ask" else {**step, **answered}
        entries = tenant.entries


def world_answers(refused: int | None = None) -> list[dict]:
    """The answers to the steps of the world, of which a line may be refused for memory."""
    world = World(WORLD)
    return [NO_MEMORY if number == refused else world.answer(step).answer for number, step in enumerate(RUN)]


def serial_answer(job: dict) -> dict:
    return {"serial": serial_value(job)} if job else error(4)


class Script:
    """A script of a word, its answers, and those with each line refused for memory that may be. Else an allocation that
    fails ends the script after a first part of its answers.
    """

    def __init__(self, word: str, lines: Sequence[object], answers: Sequence[object],
                 refusals: Sequence[list[dict]] = ()) -> None:
        self.name, self.words = f"arena-script {word}", [PROGRAM, word]
        self.stride, self.lanes = 1, 1
        self.text, self.answers = text_of(lines), text_of(answers)
        self.refusals = {text_of(others): f"a refusal of step {others.index(NO_MEMORY) + 1}" for others in refusals}
        counts = [0] if word == "finish" else range(len(answers))  # a finished dump is written at once
        self.effects = [*(f"the end after {count} answers" for count in counts), *self.refusals.values()]

    def run(self, room: dict[str, str]) -> Outcome:
        """Runs it, for half a minute at most."""
        devices = {"input": self.text, "capture_output": True, "text": True}
        try:
            done = subprocess.run(self.words, **devices, env=room, timeout=SECONDS)
        except subprocess.TimeoutExpired as hung:
            return Outcome(True, None, hung)
        said = done.stderr.removeprefix("failed\n")
        return Outcome(said != done.stderr, self.effect(done.stdout, said, done.returncode), done)

    def effect(self, printed: str, said: str, status: int) -> str | None:
        """What a failed allocation did, or None if it may not do that."""
        if (said, status) == ("", 0):
            return "nothing" if printed == self.answers else self.refusals.get(printed)
        is_part = self.answers.startswith(printed) and printed[-1:] in ("", "\n")
        is_end = (said, status) == ("arena-script: memory\n", 3)
        return f"the end after {len(printed.splitlines())} answers" if is_part and is_end else None


def text_of(lines: Sequence[object]) -> str:
    """The text of lines, each of which is a text itself or a value."""
    return "".join((line if isinstance(line, str) else line_of(line)) + "\n" for line in lines)


def scripts() -> list[Script]:
    """A script for each word."""
    tenant = Tenant(TENANT)
    # a line that brings a job is read straight, and by its JSON value if an allocation fails there, so none is refused
    refusals = [world_answers(number) for number, step in enumerate(RUN)
                if step["step"] == "line" and '"job":{' not in step["text"]]
    return [Script("own", [{"tenant": TENANT}, *OWN], [tenant_answer(tenant, step) for step in OWN]),
            Script("run", [WORLD, *RUN], world_answers(), refusals),
            Script("serial", JOBS, [serial_answer(job) for job in JOBS]),
            Script("check", [*dump(OWN)], ["yes"]),
            Script("finish", [*dump(OWN)], [*dump([*OWN, *FINISHED])])]
