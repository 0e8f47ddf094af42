"""What a seed says of a host: its tenants, its words, and one process after another in its folder, all but the last of which are
killed."""
import json
import random
from dataclasses import dataclass

from drawing import NAMES, Ask, Drawer, Kill, Player, Scenario, act_of, auditor, draw_tenant


@dataclass(frozen=True)
class Plan:
    """What all processes of a host have in common."""

    seed: int
    config: dict
    words: list[str]
    run: str
    """The folder in which it works."""
    themes: tuple[str, ...]
    forgets: bool
    """Whether clients retire and release jobs."""

    @property
    def socket(self) -> str:
        """Where it is reached."""
        return f"{self.run}/socket"


def draw_kill(dice: random.Random) -> Kill:
    """A kill while the host starts, at some step of its life, or when a reply has just gone out."""
    kills = [Kill(step=dice.randrange(1, 1500)), Kill(step=dice.randrange(900, 9000)), Kill(replies=dice.randrange(1, 20))]
    return dice.choices(kills, [1, 3, 4])[0]


def draw_plan(dice: random.Random, seed: int, run: str, is_killed: bool) -> Plan:
    """Short histories, each of which is left for the next one once a part of it is used. If it is killed, what it acknowledges must
    outlive that, and most often no client forgets anything."""
    tenants = [{**draw_tenant(dice, name), "steps": dice.choice([1500, 3000])} for name in NAMES[:dice.choice([1, 1, 2])]]
    durable = dice.choice(["write", "write", "reply", "second"] if is_killed else ["off", "write", "second", "reply"])
    words = ["--rotate-at", str(dice.choice([5, 20, 50])), "--keep", "1000", "--durable", durable]
    themes = ("mixed", "goes", "crowds", *["brings"] * (3 * is_killed))
    forgets = not is_killed or dice.random() < 0.25
    return Plan(seed, {"tenants": tenants, "workers": dice.choice([1, 2, 3])}, words, run, themes, forgets)


def draw_part(dice: random.Random, plan: Plan, kill: Kill | None) -> Scenario:
    """One process: clients, some of which ask for the next terms. The last one removes the socket, when the others have ended or
    sooner; a process that is to be killed goes on without that, most often."""
    tenants = [it["name"] for it in plan.config["tenants"]]
    players = [Drawer(dice, dice.choice(tenants), plan.forgets).one(plan.socket, dice.choice(plan.themes))
               for _ in range(dice.randrange(2, 6))]
    for _ in range(dice.randrange(3)):
        name = dice.choice(["rotate", f"rotate.{dice.choice(tenants)}"])
        players.append(Player("", [], [f"sleep {dice.choice([1, 100, 1000, 50_000])}\n", f"make {plan.run}/{name}\n"]))
    is_stopped = dice.random() < 0.25
    stop = [f"sleep {dice.choice([0, 1, 300, 2000, 300_000])}\n"] if is_stopped else ["await\n"]
    if not is_stopped and not kill:
        players += [auditor(plan.socket, players, it) for it in tenants]
    if is_stopped or not kill:
        players.append(Player("", [], [*stop, f"remove {plan.socket}\n"]))
    return Scenario(plan.seed, plan.config, players, is_stopped, plan.words, kill)


def draw_host(seed: int, run: str) -> list[Scenario]:
    """What a seed says of a host. By each second one it is killed once or more often, and started again."""
    dice, is_killed = random.Random(seed), seed % 2 == 1
    plan = draw_plan(dice, seed, run, is_killed)
    kills = [draw_kill(dice) for _ in range(dice.randrange(1, 4))] if is_killed else []
    return [draw_part(dice, plan, kill) for kill in (*kills, None)]


def reminder(path: str, tenant: str, jobs: list[int]) -> Player:
    """A client that asks for jobs which were acknowledged before the host was killed: each must have its outcome."""
    asks = [Ask("hello", json.dumps({"op": "hello", "tenant": tenant}))]
    asks += [Ask("poll", json.dumps({"job": job, "op": "poll"}), job, is_last=True) for job in jobs]
    return Player(tenant, asks, [f"connect {path}\n", *[act_of(it.text + "\n") for it in asks], "end\n", "rest\n", "close\n"])
