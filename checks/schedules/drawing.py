"""What a seed says: a configuration, and what each client does."""
import json
import random
from dataclasses import dataclass, field

from jobs import JOBS, LONG

NAMES = ("acme", "beta", "gamma")
LATER = 2_000_000
"""How many microseconds of the run's clock what was sent is answered within, also if its client has gone."""
BAD_LINES = (('{"op":"dance"}', 3), ("{", 2), ('{"job":{"args":[0,0],"fuel":0,"procs":[[["ret",0]]]},"op":"submit"}', 4))


@dataclass
class Ask:
    """A request as it was sent, with the reply that tells its job's number, if it names one of the client's own."""

    op: str
    text: str
    job: int | None = None
    """The job that it makes, by its place in `JOBS`; the job's number that it names; the code of a line that is bad."""
    of_reply: int | None = None
    """The reply of the same client that told the number, from 0."""
    release: bool = False
    is_last: bool = False
    """Whether no job is made any more, so that each that was made is known."""


@dataclass
class Player:
    """A client: its tenant, what it asks, and its acts for the library."""

    tenant: str
    asks: list[Ask] = field(default_factory=list)
    acts: list[str] = field(default_factory=list)
    hangs_up: bool = False


@dataclass(frozen=True)
class Kill:
    """When a process is killed: at that step, or as soon as so many writes of replies went out; soon after its last client has
    gone in any case."""

    step: int = 0
    replies: int = 0


@dataclass
class Scenario:
    """All that a process is made of but the schedule."""

    seed: int
    config: dict
    players: list[Player]
    is_stopped: bool
    """Whether a client removes the socket while others ask."""
    words: list[str] = field(default_factory=list)
    """What else the program is called with."""
    kill: Kill | None = None


def draw_tenant(dice: random.Random, name: str) -> dict:
    """A tenant with a slot for workers at least. One in eight has a short history."""
    slots = dice.choice([2, 2, 3, 3, 4, 6])
    return {"name": name, "priority": dice.choice(["low", "normal", "high"]), "reserved": dice.randrange(slots), "rows": 400,
            "slots": slots, "steps": 60 if dice.random() < 0.125 else 4000}


def act_of(text: str) -> str:
    """The act that sends a text."""
    return f"send {len(text)}\n{text}\n"


class Drawer:
    """Draws what one client asks, one request after another."""

    def __init__(self, dice: random.Random, tenant: str, forgets: bool = True) -> None:
        """A client of a tenant that has asked nothing. Unless it forgets, it retires and releases no job."""
        self.dice, self.player, self.made, self.forgets = dice, Player(tenant), [], forgets
        self.read = 0  # how many replies it has waited for
        self.add(Ask("hello", json.dumps({"op": "hello", "tenant": tenant})))

    def add(self, ask: Ask) -> None:
        """Sends a request: in one part, or in two."""
        self.player.asks.append(ask)
        line = ask.text + "\n"
        cut = self.dice.randrange(len(line)) if self.dice.random() < 0.2 and "$" not in line else 0
        self.player.acts += [act_of(part) for part in (line[:cut], line[cut:]) if part]

    def make(self) -> None:
        """A submit or an execute."""
        op, job = self.dice.choice(["submit", "execute"]), self.dice.randrange(len(JOBS))
        if op == "submit" or self.dice.random() < 0.5:
            self.made.append(len(self.player.asks))
        self.add(Ask(op, json.dumps({"job": JOBS[job].sent, "op": op}), job))

    def name(self, op: str) -> None:
        """A request that names a job: one of its own, whose number it has read, or some number of the tenant's."""
        dice = self.dice
        release = self.forgets and op == "collect" and dice.random() < 0.2
        more = {"release": True} if release else {}
        if self.made and dice.random() < 0.8:
            reply = dice.choice(self.made)
            self.wait(reply + 1)
            text = json.dumps({"job": 0, "op": op, **more}).replace('"job": 0', f'"job": ${reply}')
            self.add(Ask(op, text, None, reply, release))
        else:
            number = dice.randrange(1, 9)
            self.add(Ask(op, json.dumps({"job": number, "op": op, **more}), number, None, release))

    def wait(self, lines: int) -> None:
        """Waits for so many replies in all."""
        if lines > self.read:
            self.read = lines
            self.player.acts.append(f"lines {lines}\n")

    def step(self) -> None:
        """One request, or a pause."""
        kind = self.dice.choices(["make", "poll", "collect", "cancel", "cells", "arena", "retire", "release", "bad", "wait", "sleep"],
                                 [40, 10, 25, 4, 3, 3, 2 * self.forgets, 2 * self.forgets, 2, 20, 6])[0]
        if kind == "make":
            self.make()
        elif kind in ("poll", "collect", "cancel", "release"):
            self.name(kind)
        elif kind in ("cells", "arena", "retire"):
            self.add(Ask(kind, '{"key":0,"op":"cells"}' if kind == "cells" else f'{{"op":"{kind}"}}'))
        elif kind == "bad":
            text, code = self.dice.choice(BAD_LINES)
            self.add(Ask("bad", text, code))
        elif kind == "wait":
            self.wait(len(self.player.asks))
        else:
            self.pause()

    def pause(self) -> None:
        """Waits for so many microseconds, each of which is a step while threads run."""
        self.player.acts.append(f"sleep {self.dice.choice([1, 50, 300, 1000, 3000, 10_000, 300_000])}\n")

    def goes(self, path: str) -> Player:
        """A client that executes a job of several rows, and hangs up while it runs."""
        job = self.dice.choice(LONG)
        self.add(Ask("execute", json.dumps({"job": JOBS[job].sent, "op": "execute"}), job))
        self.pause()
        self.player.acts = [f"connect {path}\n", *self.player.acts, "close\n"]
        self.player.hangs_up = True
        return self.player

    def crowds(self, path: str) -> Player:
        """A client that submits a job of several rows, or none, and collects those that others may have made."""
        if self.dice.random() < 0.6:
            job = self.dice.choice(LONG)
            self.add(Ask("submit", json.dumps({"job": JOBS[job].sent, "op": "submit"}), job))
        for number in self.dice.sample(range(1, 4), 3):
            self.add(Ask("collect", json.dumps({"job": number, "op": "collect"}), number))
        self.player.acts = [f"connect {path}\n", *self.player.acts, "end\n", "rest\n", "close\n"]
        return self.player

    def brings(self, path: str) -> Player:
        """A client that brings one job after another, and reads each reply before the next."""
        for _ in range(self.dice.randrange(3, 9)):
            self.make()
            self.wait(len(self.player.asks))
        self.player.acts = [f"connect {path}\n", *self.player.acts, "end\n", "rest\n", "close\n"]
        return self.player

    def one(self, path: str, theme: str) -> Player:
        """A client of a run of that theme."""
        kinds = {"goes": self.goes, "crowds": self.crowds, "brings": self.brings}
        return kinds.get(theme if self.dice.random() < 0.8 else "mixed", self.drawn)(path)

    def drawn(self, path: str) -> Player:
        """The client with its end: most read all their replies, others hang up in the midst, and some never read."""
        for _ in range(self.dice.randrange(1, 12)):
            self.step()
        self.player.acts.insert(0, f"connect {path}\n")
        self.player.hangs_up = self.dice.random() < 0.3
        if self.dice.random() < 0.3:
            self.player.acts.insert(0, f"sleep {self.dice.choice([1, 300, 300_000])}\n")
        self.player.acts += ["close\n"] if self.player.hangs_up else ["end\n", "rest\n", "close\n"]
        return self.player


def auditor(path: str, players: list[Player], tenant: str) -> Player:
    """A client that comes when all before it have ended, and what they sent is answered: whoever made a job of the tenant, and
    whether or not it waited, the job has its outcome in the end, and a new one is done too."""
    count = sum(ask.op in ("submit", "execute") for it in players if it.tenant == tenant for ask in it.asks)
    asks = [Ask("hello", json.dumps({"op": "hello", "tenant": tenant})), Ask("submit", json.dumps({"job": JOBS[0].sent, "op": "submit"}), 0)]
    asks += [Ask("collect", json.dumps({"job": number, "op": "collect"}), number, is_last=True) for number in range(1, count + 2)]
    return Player(tenant, asks, ["await\n", f"sleep {LATER}\n", f"connect {path}\n", *[act_of(it.text + "\n") for it in asks], "end\n", "rest\n", "close\n"])


def draw_scenario(seed: int, path: str) -> Scenario:
    """What a seed says. The last client removes the socket: when the others have ended, or sooner."""
    dice = random.Random(seed)
    tenants = [draw_tenant(dice, name) for name in NAMES[:dice.choice([1, 1, 2, 3])]]
    theme = dice.choice(["mixed", "goes", "crowds"])
    players = [Drawer(dice, dice.choice(tenants)["name"]).one(path, theme) for _ in range(dice.randrange(2, 7))]
    is_stopped = dice.random() < 0.25
    stop = [f"sleep {dice.choice([0, 1, 300, 2000, 300_000])}\n"] if is_stopped else ["await\n"]
    players += [auditor(path, players, it["name"]) for it in tenants if not is_stopped]
    players.append(Player("", [], [*stop, f"remove {path}\n"]))
    return Scenario(seed, {"tenants": tenants, "workers": dice.choice([1, 2, 2, 3, 4])}, players, is_stopped)
