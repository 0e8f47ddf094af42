"""Hosts, dispatchers and submitters are killed and frozen at drawn moments, above all those that have jobs under way; then each
acknowledged job must have exactly one outcome, the right one, under its key."""
import collections
import contextlib
import json
import random
import signal
import sys
import time
from dataclasses import dataclass, field

from jobs import Drawn
from processes import HERE, PATIENCE, Place, Process, connect, until
from stepped import set_clock
from tests.postgres_server import Server

from arena.queue.base import is_url
from arena.queue.model import SECOND
from arena.queue.policy import LONGEST_DELAY

LEASE, LONG_LEASE = 2.0, 60.0
"""That of dispatchers while harm is done, and afterwards: on a machine that is so busy that each process stands still for seconds, short
ones would be lost again and again."""

HOSTS, SUBMITTERS = 2, 2
DISPATCHERS = ((0,), (1,), (0, 1))
"""Which hosts each dispatcher may have: the last one is there for both."""

KINDS = {"dispatcher": 4, "host": 2, "submitter": 1, "freeze": 4, "freeze host": 1, "rotate": 1}
"""What is done, and how often: a process is killed, or frozen, or a host told to rotate. `dispatcher` and `freeze` are of one that
has jobs under way."""

IN_A_FILE = {**KINDS, "clock": 2}
IN_POSTGRES = {**KINDS, "server": 2}
"""The clock of dispatchers and submitters is set; the server, whose clock it would be otherwise, is killed."""

CLOCKS = (-200_000, -3_600, -30, 0, 30, 3_600, 200_000)
"""By how many seconds the clock is off."""

BUSY_SECONDS = 0.5
"""How long such a one is looked for."""

# Beside the queue's own tables: each time that a job gets an outcome, and each later change of one.
WATCH = """
CREATE TABLE outcome (job INTEGER, state TEXT, value INTEGER, fault INTEGER);
CREATE TRIGGER watch_end AFTER UPDATE ON job WHEN OLD.ended_at IS NULL AND NEW.ended_at IS NOT NULL BEGIN
    INSERT INTO outcome VALUES (NEW.id, NEW.state, NEW.value, NEW.fault); END;
CREATE TRIGGER watch_change AFTER UPDATE ON job WHEN OLD.ended_at IS NOT NULL BEGIN
    INSERT INTO outcome VALUES (NEW.id, 'changed', NEW.value, NEW.fault); END;
"""
WATCH_POSTGRES = """
CREATE TABLE outcome (job bigint, state text, value bigint, fault integer);
CREATE FUNCTION watch() RETURNS trigger LANGUAGE plpgsql AS $$ BEGIN
    INSERT INTO outcome VALUES (NEW.id, CASE WHEN OLD.ended_at IS NULL THEN NEW.state ELSE 'changed' END, NEW.value, NEW.fault);
    RETURN NULL; END $$;
CREATE TRIGGER watch_end AFTER UPDATE ON job FOR EACH ROW
    WHEN (OLD.ended_at IS NOT NULL OR NEW.ended_at IS NOT NULL) EXECUTE FUNCTION watch();
"""


@dataclass
class Found:
    """What was found: how many jobs were acknowledged, what was done, and what is wrong."""

    acknowledged: int = 0
    states: collections.Counter[str] = field(default_factory=collections.Counter)
    run_again: int = 0
    run_alone: int = 0
    done: collections.Counter[str] = field(default_factory=collections.Counter)
    wrong: collections.Counter[str] = field(default_factory=collections.Counter)
    examples: dict[str, object] = field(default_factory=dict)

    def note(self, what: str, *more: object) -> None:
        """Notes something that is wrong."""
        self.wrong[what] += 1
        self.examples.setdefault(what, more)


def watch(queue: str) -> None:
    """Has each outcome noted in a table of the queue's database."""
    with contextlib.closing(connect(queue)) as base:
        if is_url(queue):
            base.cursor().execute(WATCH_POSTGRES)
        else:
            base.executescript(WATCH)


class Chaos:
    """The processes, and what is done to them."""

    def __init__(self, place: Place, seed: int, rate: float, server: Server | None = None) -> None:
        self.place, self.draws, self.server = place, random.Random(seed), server
        place.arena("queue", "init", "--keep", 0, "--keep-jobs", 0)
        watch(place.queue)
        self.hosts = [place.host(it) for it in range(HOSTS)]
        self.dispatchers = [place.dispatcher(number, *its, lease=LEASE) for number, its in enumerate(DISPATCHERS)]
        self.submitters = [place.process(f"submitter{it}", sys.executable, HERE / "submitter.py", place.folder, f"s{it}", seed, rate)
                           for it in range(SUBMITTERS)]
        self.down: list[tuple[float, Process | Server]] = []
        self.frozen: list[tuple[float, Process]] = []
        self.done: collections.Counter[str] = collections.Counter()

    def run(self, seconds: float, kinds: dict[str, int] = KINDS, until_changed: bool = False) -> None:
        """Does harm of these kinds for so many seconds, each once at first and then as drawn, or until an outcome is changed, and
        then lets everything end. On a slow machine it takes longer, until each kind was done."""
        for it in (*self.hosts, *self.dispatchers, *self.submitters):
            it.start()
        until(lambda: self.place.rows("SELECT 1 FROM outcome LIMIT 1"), "the first outcome")
        end, next_at, first = time.monotonic() + seconds, 0.0, self.draws.sample([*kinds], len(kinds))
        while time.monotonic() < end + (PATIENCE if first else 0) and not (until_changed and self._is_changed()):
            self._bring_back(time.monotonic())
            if time.monotonic() >= next_at:
                next_at = time.monotonic() + self.draws.uniform(0.2, 1.5)
                if self._harm(first[-1] if first else self.draws.choices([*kinds], [*kinds.values()])[0]) and first:
                    first.pop()
            time.sleep(0.01)
        self._bring_back(float("inf"))
        set_clock(self.place.clock, max(CLOCKS))  # so that everything is due
        (self.place.folder / "stop").touch()
        for it in self.submitters:
            assert it.wait() == 0, it.printed()
        self._calm_down()
        until(self._is_done, "the last outcome", PATIENCE + LONGEST_DELAY / SECOND, lambda: f"{self._left()} {self._printed()}")
        self._end_dispatchers()

    def _end_dispatchers(self) -> None:
        """Ends them in order; one that has only just begun may not know the signal yet."""
        for it in self.dispatchers:
            it.signal(signal.SIGTERM)
        for it in self.dispatchers:
            assert it.wait() in (0, -signal.SIGTERM), it.printed()

    def _calm_down(self) -> None:
        """Puts dispatchers with long leases in the place of the others."""
        self._end_dispatchers()
        self.dispatchers = [self.place.dispatcher(number, *its, lease=LONG_LEASE)
                            for number, its in enumerate(DISPATCHERS, len(DISPATCHERS))]
        for it in self.dispatchers:
            it.start()

    def _is_done(self) -> bool:
        return not self.place.rows("SELECT 1 FROM job WHERE ended_at IS NULL LIMIT 1")

    def _left(self) -> object:
        return self.place.rows("SELECT tenant, state, count(*), max(failures), max(alone), min(run_at) FROM job WHERE "
                               "ended_at IS NULL GROUP BY tenant, state")

    def _printed(self) -> str:
        return "\n".join(f"{it.name}: {it.printed()[-1000:]}" for it in self.dispatchers)

    def _is_changed(self) -> bool:
        return bool(self.place.rows("SELECT 1 FROM outcome WHERE state = 'changed' LIMIT 1"))

    def _bring_back(self, clock: float) -> None:
        for at, it in [one for one in self.down if one[0] <= clock]:
            self.down.remove((at, it))
            it.start()
        for at, it in [one for one in self.frozen if one[0] <= clock]:
            self.frozen.remove((at, it))
            it.signal(signal.SIGCONT)

    def _harm(self, what: str) -> bool:
        """Does something to a process that is well; whether there was one."""
        if what == "clock":
            self.done[what] += 1
            set_clock(self.place.clock, self.draws.choice(CLOCKS))
            return True
        ill = {it for _, it in (*self.down, *self.frozen)}
        of = {"host": self.hosts, "rotate": self.hosts, "freeze host": self.hosts, "submitter": self.submitters,
              "server": [] if self.server is None else [self.server]}
        well = [it for it in of.get(what, self.dispatchers) if it not in ill]
        if what in ("dispatcher", "freeze"):
            wanted, end = well, time.monotonic() + BUSY_SECONDS
            while not (well := self._busy(wanted)) and time.monotonic() < end:
                time.sleep(0.005)
        if not well:
            return False
        one, clock = self.draws.choice(well), time.monotonic()
        self.done[what] += 1
        if what == "rotate":
            (self.place.folder / one.name / "rotate").touch()
        elif what.startswith("freeze"):
            one.signal(signal.SIGSTOP)
            longest = LEASE * 2.5 if what == "freeze" else LEASE / 2
            self.frozen.append((clock + self.draws.uniform(longest * 0.6, longest), one))
        else:
            one.kill()
            self.down.append((clock + self.draws.uniform(0, 1.5), one))
        return True

    def _busy(self, well: list[Process]) -> list[Process]:
        """Those of some dispatchers that have jobs under way."""
        if any(it is self.server for _, it in self.down):
            return []  # nobody knows
        names = [str(it) for it, in self.place.rows("SELECT name FROM dispatcher d WHERE EXISTS (SELECT 1 FROM job WHERE state = "
                                                    "'running' AND dispatcher = d.id)")]
        return [it for it in well if any(name.endswith(f":{it.pid}") for name in names)]

    def audit(self) -> Found:
        """What became of each job that was acknowledged."""
        found = Found(done=self.done)
        acknowledged, cancelled = self._lines(found)
        rows = {row[0]: row for row in self.place.rows("SELECT id, key, tenant, state, value, fault, attempt FROM job")}
        outcomes = collections.defaultdict(list)
        for job, *outcome in self.place.rows("SELECT job, state, value, fault FROM outcome"):
            outcomes[job].append(tuple(outcome))
        for job, line in acknowledged.items():
            if job not in rows:
                found.note("acknowledged and not there", line)
                continue
            _, key, tenant, *outcome, attempts = rows[job]
            if (key, tenant) != (line["key"], line["tenant"]):
                found.note("under another key", line, rows[job])
            if outcomes[job] != [tuple(outcome)]:
                found.note("not one outcome", line, rows[job], outcomes[job])
            if not (outcome[0] == "canceled" and job in cancelled) and not Drawn(*line["of"]).is_right(*outcome):
                found.note("wrong", line, rows[job])
            found.states[str(outcome[0])] += 1
            found.run_again += int(str(attempts)) > 1
        keys = [row[1] for row in rows.values()]
        if len(set(keys)) != len(keys):
            found.note("a key twice", collections.Counter(keys).most_common(3))
        if self.server is None and (said := self.place.rows("PRAGMA integrity_check")) != [("ok",)]:
            found.note("integrity", said)
        counted = self.place.rows("SELECT tenant, state, count(*) FROM job GROUP BY tenant, state ORDER BY tenant, state")
        if counted != self.place.rows("SELECT tenant, state, sum(jobs) FROM tally GROUP BY tenant, state HAVING sum(jobs) <> 0 "
                                      "ORDER BY tenant, state"):
            found.note("counts", counted)
        found.acknowledged = len(acknowledged)
        (found.run_alone,), = self.place.rows("SELECT count(*) FROM job WHERE alone > 0")
        return found

    def _lines(self, found: Found) -> tuple[dict[object, dict], set[object]]:
        """What the submitters have written: the jobs that were acknowledged, and those that they cancelled."""
        acknowledged: dict[object, dict] = {}
        cancelled = set()
        for path in self.place.folder.glob("*.lines"):
            for text in path.read_text().splitlines():
                line = json.loads(text)
                if "cancelled" in line:
                    cancelled.add(line["cancelled"])
                elif acknowledged.setdefault(line["job"], line) != line:
                    found.note("one number for two keys", line, acknowledged[line["job"]])
        return acknowledged, cancelled
