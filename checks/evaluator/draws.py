"""Drawn tenants, jobs, worlds and steps."""
import json
from collections.abc import Iterator, Sequence
from random import Random

from private import OF_TWO
from world import REFUSED, World

MIXED = """set set set add add sub mul div rem and or xor shl shr lt le eq jz jmp slot width
spawn spawn spawn spawn spawn spawn spawn spawn wait wait
isolate isolate isolate isolate isolate isolate post cancel cancel cancel ask ask load store store sum count""".split()
# Instructions of one group, in a row.
GROUPED = [["spawn", "set", "cancel", "wait"], ["spawn", "spawn", "set", "wait"], ["spawn", "wait", "spawn", "wait"]]
SERIAL = "set set add sub mul div rem and or xor shl shr lt le eq jz spawn spawn spawn spawn isolate wait".split()
VALUES = {"number": [0, 1, -1, 2, 3, 63, 64, -2, 2**63 - 1, -2**63], "register": range(8), "key": range(3)}


class Draws:
    """Draws, one after another."""

    def __init__(self, random: Random) -> None:
        self.random = random

    def tenant(self, name: str = "acme") -> dict:
        """A tenant of a configuration."""
        slots = self.random.choice([1, 2, 3, 3, 4])
        config = {"name": name, "priority": self.random.choice(["low", "normal", "high"]), "slots": slots,
                  "reserved": self.random.choice([0, 1, 1, 1, slots]), "rows": self.random.choice([1, 8] + [200] * 4),
                  "steps": self.random.choice([20, 100] + [10000] * 5)}
        mode = self.random.choice([None, "exact", "within"])
        return {**config, "isolation": mode} if mode else config

    def instr(self, name: str, group: int | None, length: int, procs: Sequence[int]) -> list:
        """An instruction of a procedure of that length. It names one of these procedures, and the group if one is given."""
        draw = {"group": lambda: self.random.randrange(2) if group is None else group,
                "target": lambda: self.random.randrange(length), "proc": lambda: self.random.choice(procs)}
        return [name, *(draw[kind]() if kind in draw else self.random.choice(VALUES[kind]) for kind in OPERANDS[name])]

    def names(self, known: Sequence[str]) -> list[tuple[str, int | None]]:
        """Names of instructions, each with its group if that is not to be drawn."""
        if self.random.random() < 0.3 and {"spawn", "cancel"} <= {*known}:
            group = self.random.randrange(2)
            return [(name, group) for name in self.random.choice(GROUPED)]
        return [(self.random.choice(known), None)]

    def proc(self, known: Sequence[str], procs: Sequence[int]) -> list:
        """A procedure that makes rows of these, and mostly waits for each group at its end."""
        names = [name for _ in range(self.random.randint(0, 8)) for name in self.names(known)]
        body = [self.instr(*name, len(names) + 3, procs) for name in names]
        waits = [["wait", 4, 5, group] if self.random.random() < 0.93 else ["set", 2, 1] for group in range(2)]
        return [*body, *waits, ["ret", self.random.choice([2, 4, 5, 6, 7])]]

    def job(self, is_serial: bool = False) -> dict:
        """A job. In most of them each procedure makes rows of later ones; the others are ended by their fuel."""
        names = SERIAL if is_serial else MIXED
        leaf = [name for name in names if name not in ("spawn", "isolate", "post")]
        count, is_layered = self.random.randint(1, 5), self.random.random() < 0.6
        procs = [self.proc(names, range(number if is_layered else 0, count)) for number in range(1, count)]
        fuel = self.random.choice([1, 100, 1500, 4000, 4000])
        return {"args": self.random.choices(VALUES["number"], k=2), "fuel": fuel, "procs": [*procs, self.proc(leaf, [0])]}

    def nest(self) -> dict:
        """A job of regions within regions, each with tasks, some of which are cancelled while others of them are live."""
        def tasks(proc):
            spawns = [["spawn", 0, proc, 0, 1] for _ in range(self.random.randint(2, 4))]
            posts = [["post", 4, 0, 1]] * self.random.randint(0, 2)
            cancels = [["cancel", 0]] if self.random.random() < 0.5 else []
            return [*spawns, *posts, ["set", 2, 1], *cancels, ["wait", 4, 5, 0], ["ret", self.random.choice([4, 5])]]

        def region(proc):
            return [["isolate", 6, proc, 0, 1], ["ret", 6]]

        leaf = [["store", 0, 1], ["count", 3, 0], ["ask", 4], ["lt", 5, 4, 3], ["ret", self.random.choice([3, 4])]]
        return self.made_of([region(1), tasks(2), region(3), tasks(4), leaf])

    def tower(self) -> dict:
        """A job of regions, or of tasks, that stand on one slot until there is no room."""
        way = self.random.choice([[["isolate", 4, 0, 0, 1]], [["spawn", 0, 0, 0, 1], ["wait", 4, 5, 0]]])
        return self.made_of([[*way, ["ret", 4]]])

    def tree(self) -> dict:
        """A job of rows that each make two rows, for the two smaller numbers: tasks, or a task and a region."""
        second, adds = self.random.choice([(["spawn", 0, 0, 3, 1], []), (["isolate", 6, 0, 3, 1], [["add", 4, 4, 6]])])
        leaf = [["set", 2, 2], ["lt", 3, 0, 2], ["jz", 3, 4], ["ret", 0]]
        makes = [["set", 2, 1], ["sub", 3, 0, 2], ["spawn", 0, 0, 3, 1], ["sub", 3, 3, 2], second]
        job = self.made_of([[*leaf, *makes, ["wait", 4, 5, 0], *adds, ["ret", 4]]])
        return {**job, "args": [self.random.randint(2, 9), 0]}

    def made_of(self, procs: list) -> dict:
        """A job of these procedures, with enough fuel."""
        return {"args": self.random.choices(VALUES["number"], k=2), "fuel": 4000, "procs": procs}

    def making(self) -> dict:
        """A request that makes a job."""
        draw = self.random.choices([self.job, self.nest, self.tower], [10, 8, 2])[0]
        return {"op": self.random.choice(["submit", "execute"]), "job": draw()}

    def request(self, made: int) -> dict:
        """A request to a tenant that has made that number of jobs."""
        op = self.random.choice(["poll", "collect", "cancel", "cells", "arena", "retire", "release", "hello"])
        own = {"cells": {"key": self.random.randrange(3)}, "arena": {}, "retire": {}, "hello": {"tenant": "acme"}}
        request = {"op": op, **own.get(op, {"job": self.random.randint(0, made + 1)})}
        if op == "collect" and self.random.random() < 0.6:
            request["release"] = self.random.random() < 0.7
        return request

    def steps(self, slots: int) -> Iterator[dict]:
        """Steps of a script: jobs that come between arrivals and advances, and then moves alone."""
        made = 0
        for _ in range(self.random.randint(20, 300)):
            chance = self.random.random()
            if chance < 0.04:
                made += 1
                yield {"step": "ask", "request": self.making()}
            elif chance < 0.1:
                yield {"step": "ask", "request": self.request(made)}
            else:
                yield self.move(slots + 1 if chance < 0.11 else slots)
        for _ in range(self.random.randint(0, 300)):
            yield self.move(slots)
        yield from ({"step": "ask", "request": {"op": "poll", "job": job}} for job in range(1, made + 1))

    def world(self) -> dict:
        """A configuration of one to three tenants."""
        names = ["acme", "beta", "core"][: self.random.randint(1, 3)]
        return {"tenants": [self.tenant(name) for name in names], "workers": self.random.randint(1, 3)}

    def line(self, made: int) -> str:
        """The text of a line to a tenant that has made that number of jobs."""
        chance = self.random.random()
        if chance < 0.1:
            return self.random.choice(["", " \t", *REFUSED])
        return self.spelled(self.making() if chance < 0.5 else self.request(made))

    def spelled(self, request: dict) -> str:
        """The text of a request: as the client writes it, which is read without a JSON value between, or with blanks and with
        its members in the order that they have here."""
        if self.random.random() < 0.5:
            return json.dumps(request, separators=(",", ":"), sort_keys=True)
        return json.dumps(request)

    def stray_step(self, names: Sequence[str]) -> dict:
        """A step of a world, of any tenant, slot and worker, whether or not it is there."""
        kind = self.random.choice(["line", "master", "push", "pop", "arrive", "advance"])
        name = self.random.choice(names)
        if kind == "line":
            return {"step": kind, "tenant": name, "text": self.line(1)}
        if kind in ("master", "push"):
            return {"step": kind, "tenant": name, "slot": self.random.randrange(5)}
        return {"step": kind, "worker": self.random.randrange(4)}

    def world_step(self, world: World) -> dict:
        """A step of a world that is mostly allowed."""
        kind = self.random.choice(["stray", "line"] + ["master", "push"] * 3 + ["worker"] * 8)
        name, worker = self.random.choice([*world.tenants]), self.random.randrange(len(world.workers))
        due = [slot for slot, state in world.slots.items() if state == "due"]
        has, tenant = world.workers[worker], world.tenants[name]
        if kind == "line":
            return {"step": kind, "tenant": name, "text": self.line(len(tenant.jobs))}
        if kind == "master" and tenant.config["reserved"]:
            return {"step": kind, "tenant": name, "slot": self.random.randrange(tenant.config["reserved"])}
        if kind == "push" and due:
            name, slot = self.random.choice(due)
            return {"step": kind, "tenant": name, "slot": slot}
        if kind == "worker":
            return {"step": {"call": "arrive", "slot": "advance"}[has[0]] if has else "pop", "worker": worker}
        return self.stray_step([*world.tenants, "nobody"])

    def order(self, job: dict) -> Iterator[dict]:
        """A script of a tenant that makes one job, moves its slots in any order, and asks for the outcome."""
        tenant = {**self.tenant(), "rows": 400, "steps": 10_000}
        slots = tenant["slots"]
        makings = ["execute"] if tenant["reserved"] == slots else ["execute", "submit"]
        yield {"tenant": tenant}
        yield {"step": "ask", "request": {"op": self.random.choice(makings), "job": job}}
        yield from (self.move(slots) for _ in range(1_000))
        yield {"step": "ask", "request": {"op": "poll", "job": 1}}

    def move(self, slots: int) -> dict:
        """An arrival at one of so many slots, or an advance of it."""
        return {"step": self.random.choice(["arrive"] + ["advance"] * 4), "slot": self.random.randrange(slots)}


OPERANDS = {
    "set": ["register", "number"], "jz": ["register", "target"], "jmp": ["target"],
    **{name: ["register"] * 3 for name in OF_TWO},
    **{name: ["register"] for name in ("slot", "width", "ask", "ret")},
    **{name: ["register", "key"] for name in ("load", "sum", "count")},
    "spawn": ["group", "proc", "register", "register"], "post": ["proc", "register", "register"],
    "wait": ["register", "register", "group"], "cancel": ["group"], "store": ["key", "register"],
    "isolate": ["register", "proc", "register", "register"],
}
