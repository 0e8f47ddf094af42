"""A world of tenants and the market between them, as `docs/PROTOCOL.md` describes it."""
import json
from collections.abc import Callable
from typing import NamedTuple

from tenant import Tenant, error

LEVELS = ("high", "normal", "low")
NOT_NOW = {"market": "not_now"}
# Lines that are no request, with their errors.
REFUSED = {"{": 2, '{"op":"arena"}}': 2, "nul": 2, "[]": 3, '{"op":"stop"}': 3, '{"op":"poll"}': 3,
           '{"job":-1,"op":"poll"}': 3, '{"job":{},"op":"submit"}': 4, '{"job":1,"op":"execute"}': 4, "x" * 65537: 1}


class Answered(NamedTuple):
    """The name of the tenant whom a step is of, none if it is nobody's, and the answer."""

    name: str | None
    answer: dict


class World:
    """A world that has taken no step. A slot goes by its tenant's name and its number."""

    def __init__(self, config: dict) -> None:
        self.tenants = {it["name"]: Tenant(it) for it in config["tenants"]}
        slots = ((it["name"], slot) for it in config["tenants"] for slot in range(it["reserved"], it["slots"]))
        # Each worker's slot is home, due, queued, or with a worker.
        self.slots = dict.fromkeys(slots, "home")
        self.queues = {level: [] for level in LEVELS}
        # What each worker has: nothing, the call of a slot, or the slot itself.
        self.workers = [None] * config["workers"]

    def answer(self, step: dict) -> Answered:
        """Takes a step."""
        has = self.workers[step["worker"]] if step.get("worker", len(self.workers)) < len(self.workers) else None
        answer = getattr(self, "do_" + step["step"])(step)
        return Answered(has[1][0] if has else step.get("tenant", answer.get("tenant")), answer)

    def own(self, name: str, act: Callable[[Tenant], dict], after: Callable[[dict], None] = lambda answer: None) -> dict:
        """A tenant's own step; then the market changes, and then a slot of the tenant may wake."""
        tenant = self.tenants[name]
        entries = tenant.entries
        answer = act(tenant)
        after(answer)
        homes = [slot for slot, state in self.slots.items() if slot[0] == name and state == "home"]
        if tenant.entries > entries and homes and any(row.state == "waiting" for row in tenant.rows):
            self.slots[homes[0]] = "due"
        return answer

    def do_line(self, step: dict) -> dict:
        text = step["text"]
        if step["tenant"] not in self.tenants or not text.strip(" \t\r"):
            return NOT_NOW
        if text in REFUSED:
            return error(REFUSED[text])
        return self.own(step["tenant"], lambda tenant: tenant.ask(json.loads(text)) or {"moved": "pending"})

    def do_master(self, step: dict) -> dict:
        tenant = self.tenants.get(step["tenant"])
        if not tenant or step["slot"] >= tenant.config["reserved"]:
            return NOT_NOW
        return self.own(step["tenant"], lambda tenant: tenant.advance(step["slot"]))

    def do_push(self, step: dict) -> dict:
        slot = (step["tenant"], step["slot"])
        if self.slots.get(slot) != "due":
            return NOT_NOW
        self.slots[slot] = "queued"
        self.queues[self.tenants[slot[0]].config["priority"]].append(slot)
        return {"market": "queued"}

    def do_pop(self, step: dict) -> dict:
        worker = step["worker"]
        if worker >= len(self.workers) or self.workers[worker]:
            return NOT_NOW
        calls = [slot for level in LEVELS for slot in self.queues[level]]
        if not calls:
            return {"market": "none"}
        name, number = slot = calls[0]
        self.queues[self.tenants[name].config["priority"]].remove(slot)
        self.slots[slot] = "with a worker"
        self.workers[worker] = ("call", slot)
        return {"market": "held", "slot": number, "tenant": name}

    def move(self, step: dict, having: str, act: Callable[[Tenant, int], dict], is_over: Callable[[str], bool]) -> dict:
        """What a worker does at the slot that it has; if it is over, the slot is home and the worker free."""
        worker = step["worker"]
        has = self.workers[worker] if worker < len(self.workers) else None
        if not has or has[0] != having:
            return NOT_NOW
        name, number = slot = has[1]

        def after(answer):
            self.workers[worker] = None if is_over(answer["moved"]) else ("slot", slot)
            if is_over(answer["moved"]):
                self.slots[slot] = "home"

        return self.own(name, lambda tenant: act(tenant, number), after)

    def do_arrive(self, step: dict) -> dict:
        return self.move(step, "call", Tenant.arrive, lambda moved: moved != "arrived")

    def do_advance(self, step: dict) -> dict:
        return self.move(step, "slot", Tenant.advance, lambda moved: moved == "left")
