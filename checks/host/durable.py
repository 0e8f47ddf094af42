"""What clients were told outlives the host: kills, torn journals, a full disk, and stops that leave jobs behind."""
import contextlib
import glob
import os
import pathlib
import random
import subprocess
import tempfile
import threading
import time
from collections.abc import Iterator
from typing import IO

from hosts import FIB, FULL, PROGRAM, Host, ask, dump_lines, dumps, hang_up, results, tenant
from losses import ORDERS, submits_many
from servers import PATIENCE, by_deadline

UNKNOWN = {"code": 6, "error": "unknown_job"}
# Fibonacci numbers, by their places.
FIBONACCI = [0, 1, 1, 2, 3, 5, 8, 13, 21, 34]
SEED = 20_261_129
AT_LEAST = 20
"""How many jobs are acknowledged at least before each kill."""
STOPS = (1.5, 3, 6, 12, 12, 12)
"""How many seconds jobs take, or so, at each try of a stop, in which they may have ended: a busy machine may be slow
while they are made, and fast then."""


def submits(n: int) -> dict:
    """A request that submits the job of the nth Fibonacci number."""
    return {"op": "submit", "job": {"args": [n, 0], "fuel": 1_000_000, "procs": FIB}}


def complete(job: int, n: int) -> dict:
    """The outcome of that job."""
    return {"job": job, "status": "complete", "value": FIBONACCI[n]}


def journals(host: Host) -> list[str]:
    """The paths of the journals that are there."""
    return sorted(glob.glob(host.path("journals", "*")))


def jobs_outlive_a_kill() -> None:
    """By each durability but `off`, a job that was acknowledged just before the host was killed has its outcome in the next
    one, which it has in the results too. Numbers go on."""
    for durable in ("write", "second", "reply"):
        host = Host([tenant("acme")], "--durable", durable)
        assert host.status()["durable"] == durable
        client = host.connect()
        made = [ask(client, submits(n))["job"] for n in range(8)]
        host.kill()
        hang_up(client)
        assert len(journals(host)) == 1
        host = Host([tenant("acme")], "--durable", durable, after=host)
        [recovered] = host.told("recovered", tenant="acme", term=0)
        assert (recovered["jobs"], recovered["lost"]) == (8, 0), recovered
        expected = [complete(job, n) for n, job in enumerate(made)]
        assert results(host, "acme", 0) == expected
        assert dump_lines(host.path("dumps", "acme.000000.jsonl")) > 8
        client = host.connect()
        assert [ask(client, {"op": "poll", "job": job}) for job in made] == expected
        assert ask(client, submits(1)) == {"job": 10_001}
        hang_up(client)
        assert host.stop() == 0
        assert journals(host) == []


def a_kill_without_journals_loses_jobs() -> None:
    """With `--durable off` there are no journals, and a job that had not ended is unknown after a kill."""
    host = Host([tenant("acme")], "--durable", "off")
    client = host.connect()
    assert ask(client, submits(6)) == {"job": 1}
    assert journals(host) == []
    host.kill()
    hang_up(client)
    host = Host([tenant("acme")], "--durable", "off", after=host)
    client = host.connect()
    assert ask(client, {"op": "poll", "job": 1}) == UNKNOWN
    hang_up(client)
    assert host.stop() == 0


class Submitter:
    """A client that submits jobs, and collects some of them, through kills of its host."""

    def __init__(self, host: Host, seed: int) -> None:
        self.host, self.draw = host, random.Random(seed)
        self.is_over = threading.Event()
        # What was acknowledged: the numbers of jobs, and which Fibonacci number each gives.
        self.told: list[tuple[int, int]] = []
        self.faults: list[object] = []
        self.thread = threading.Thread(target=self.go, daemon=True)
        self.thread.start()

    def go(self) -> None:
        """Comes again whenever its connection ends."""
        while not self.is_over.is_set():
            with contextlib.suppress(OSError, ValueError):
                connection = self.host.connect()
                try:
                    while not self.is_over.is_set() and self.submit(connection):
                        pass
                finally:
                    hang_up(connection)
            time.sleep(0.01)

    def submit(self, connection: object) -> bool:
        """Submits a job, and says whether to go on."""
        n = self.draw.randrange(8)
        made = ask(connection, submits(n))
        if made is None:
            return False
        if made.get("error") == "job_limit":
            open(self.host.path("rotate.acme"), "w").close()
            time.sleep(0.05)
        elif "job" in made:
            self.told.append((made["job"], n))
            if self.draw.random() < 0.5:
                outcome = ask(connection, {"op": "collect", "job": made["job"]})
                if outcome not in (None, complete(made["job"], n)):
                    self.faults.append(outcome)
        elif made != FULL:
            self.faults.append(made)
        return True

    def end(self) -> None:
        """Lets it end."""
        self.is_over.set()
        self.thread.join()


def acknowledged(submitters: list[Submitter]) -> int:
    """How many jobs were acknowledged so far."""
    return sum(len(it.told) for it in submitters)


def kill_at_a_drawn_moment(host: Host, submitters: list[Submitter], draw: random.Random,
                           words: tuple[object, ...]) -> Host:
    """Kills a host while clients submit, once some jobs were acknowledged, which takes a slow machine longer, and then
    the next one as it starts. Returns the one after that."""
    before = acknowledged(submitters)
    time.sleep(draw.uniform(0.1, 0.8))
    by_deadline(lambda: acknowledged(submitters) >= before + AT_LEAST)
    host.kill()
    starts = [PROGRAM, "--run", host.run, "--config", host.config, *map(str, words)]
    with subprocess.Popen(starts, stdout=subprocess.DEVNULL, stderr=subprocess.DEVNULL) as begun:
        time.sleep(draw.uniform(0, 0.1))
        begun.kill()
    return Host([tenant("acme", steps=20_000)], *words, after=host)


def kills_at_drawn_moments() -> None:
    """Clients submit and collect while the host is killed again and again, also as it starts, and terms follow one another.
    No number comes twice, and in the end each job that was acknowledged has its outcome."""
    draw = random.Random(SEED)
    words = ("--keep", 10_000, "--connections", 8)
    host = Host([tenant("acme", steps=20_000)], *words)
    submitters = [Submitter(host, SEED + number) for number in range(4)]
    for _kill in range(6):
        host = kill_at_a_drawn_moment(host, submitters, draw, words)
    time.sleep(0.3)
    for submitter in submitters:
        submitter.end()
        assert submitter.faults == [], submitter.faults
    told = dict(pair for submitter in submitters for pair in submitter.told)
    assert len(told) == acknowledged(submitters)
    client = host.connect()
    for job, n in told.items():
        assert ask(client, {"op": "collect", "job": job}) == complete(job, n), (job, n)
    hang_up(client)
    assert host.stop() == 0
    for number in dumps(host, "acme"):
        assert dump_lines(host.path("dumps", f"acme.{number:06}.jsonl")) >= 1


def killed_with_a_job(n: int) -> Host:
    """A host that was killed after it acknowledged a job."""
    host = Host([tenant("acme")])
    client = host.connect()
    assert ask(client, submits(n)) == {"job": 1}
    host.kill()
    hang_up(client)
    return host


def torn_journals() -> None:
    """Whatever stands behind the whole lines of a journal, or if its last line is cut, the job that was acknowledged before is
    finished. What its tenant has not done is no part of its history, and that is told."""
    not_done = b'{"moved":"ran","slot":2,"step":"advance"}\n'
    for tail, is_told in ((b"", False), (b'{"moved":"ra', False), (bytes(100), False), (not_done, True)):
        host = killed_with_a_job(6)
        [journal] = journals(host)
        lines = pathlib.Path(journal).read_bytes().splitlines(keepends=True)
        # The tenant's line, and that of the request.
        pathlib.Path(journal).write_bytes(b"".join(lines[:2]) + tail)
        host = Host([tenant("acme")], after=host)
        assert len(host.told("fault", what="journal", term=0)) == is_told, host.events
        assert results(host, "acme", 0) == [complete(1, 6)]
        assert host.stop() == 0


def a_journal_that_cannot_be_read() -> None:
    """A file that has the name of a journal and is none is told, stays, and keeps nobody from being served."""
    host = Host([tenant("acme")])
    assert host.stop() == 0
    path = pathlib.Path(host.path("journals", "acme.000007.0.jsonl"))
    path.write_text("no journal\n")
    host = Host([tenant("acme")], after=host)
    assert len(host.told("fault", what="journal", tenant="acme", term=7)) == 1
    client = host.connect()
    assert ask(client, submits(1))["job"] > 0
    hang_up(client)
    assert host.stop() == 0
    assert path.read_text() == "no journal\n"


def a_journal_without_a_whole_line() -> None:
    """A journal without a whole line, as a kill between making the file and its first line leaves it, goes in silence: nothing was
    acknowledged by it."""
    host = Host([tenant("acme")])
    assert host.stop() == 0
    paths = [pathlib.Path(host.path("journals", f"acme.{number:06}.0.jsonl")) for number in (7, 8)]
    for path, text in zip(paths, ("", '{"tenant":{"na'), strict=True):
        path.write_text(text)
    host = Host([tenant("acme")], after=host)
    assert host.told("fault") == [] and not any(path.exists() for path in paths)
    assert host.stop() == 0


def a_stop_leaves_long_jobs_to_the_next_start() -> None:
    """Jobs that have no outcome when an ordered stop waits no longer are left to the next start, which finishes them."""
    tenants = [tenant("noisy", steps=1_000_000, slots=2), tenant("quiet", steps=100_000, slots=2)]
    for seconds in STOPS:
        host = Host(tenants, "--finish", 0, workers=1)
        made = submits_many(host, seconds)
        assert host.stop() == 0
        [closed] = host.told("closed", tenant="noisy", term=0)
        assert closed["lost"] == 0, closed
        if closed["left"]:
            break
    assert closed["left"], "each time all jobs had ended before the stop"
    host = Host(tenants, after=host)
    assert len(host.told("recovered", tenant="noisy", term=0)) == 1
    client = host.connect("noisy")
    for job in made:
        assert ask(client, {"op": "poll", "job": job}) == {"job": job, "status": "complete", "value": 7}
    hang_up(client)
    assert host.stop() == 0


@contextlib.contextmanager
def small_disk() -> Iterator[str | None]:
    """A file system of a megabyte; None where none can be mounted."""
    with tempfile.TemporaryDirectory() as folder:
        mounted = subprocess.run(["mount", "-t", "tmpfs", "-o", "size=1m", "tmpfs", folder], capture_output=True, check=False)
        try:
            yield None if mounted.returncode else folder
        finally:
            if mounted.returncode == 0:
                subprocess.run(["umount", "-l", folder], check=True)


def a_full_disk_loses_nothing() -> None:
    """While the disk is full nothing is acknowledged: a client is cut off or refused. Once there is room again the tenant is
    served by its next term, and each job that was acknowledged has its outcome, also after a kill."""
    with small_disk() as disk:
        if disk is None:
            print("a_full_disk_loses_nothing: skipped, no file system can be mounted here")
            return
        host = Host([tenant("acme")])
        host.stop()
        os.rename(host.run, host.run + ".old")
        os.symlink(disk, host.run)
        host = Host([tenant("acme")], after=host)
        client = host.connect()
        made = [ask(client, submits(5))["job"] for _ in range(5)]
        hang_up(client)
        filler = pathlib.Path(disk, "filler")
        with contextlib.suppress(OSError), filler.open("wb", buffering=0) as it:
            while it.write(bytes(4096)):
                pass
        assert not is_acknowledged(host)
        by_deadline(lambda: host.told("fault", what="journal", tenant="acme"))
        assert not is_acknowledged(host)
        filler.unlink()
        by_deadline(lambda: is_acknowledged(host), PATIENCE)
        host.kill()
        host = Host([tenant("acme")], after=host)
        client = host.connect()
        for job in made:
            assert ask(client, {"op": "collect", "job": job}) == complete(job, 5)
        hang_up(client)
        assert host.stop() == 0


def is_acknowledged(host: Host) -> bool:
    """Whether a job is acknowledged, of several that are submitted: as many as the rest of a block has room for."""
    for _submit in range(20):
        client = host.connect()
        try:
            reply = ask(client, submits(9))
        except OSError:
            reply = None
        finally:
            hang_up(client)
        if reply is None or reply == FULL:
            return False
    return True


def told_in_order(noted: IO[str]) -> list[str]:
    """What was written to journals, brought to the disk of one, and told since it was asked last, in order."""
    return [done for done in (line.split()[0] for line in noted) if done in ("written", "synced", "told")]


def replies_wait_for_the_journal() -> None:
    """Each reply goes out once what it tells was written to the journal, and by `reply` once that is on the disk."""
    with tempfile.TemporaryDirectory() as folder:
        library = os.path.join(folder, "orders.so")
        subprocess.run(["cc", "-shared", "-fPIC", "-o", library, ORDERS], check=True, timeout=PATIENCE)
        for durable, steps in (("write", ["written", "told"]), ("reply", ["written", "synced", "told"])):
            os.environ["ORDERS"] = os.path.join(folder, durable)
            # Nothing runs by itself: the only slot is reserved.
            host = Host([tenant("acme", slots=1)], "--durable", durable, preload=library)
            client = host.connect()
            with open(os.environ["ORDERS"]) as noted:
                noted.seek(0, os.SEEK_END)
                for _request in range(5):
                    assert "job" in ask(client, submits(1))
                    assert told_in_order(noted) == steps
            hang_up(client)
            assert host.stop() == 0


CHECKS = [jobs_outlive_a_kill, a_kill_without_journals_loses_jobs, kills_at_drawn_moments, torn_journals,
          a_journal_that_cannot_be_read, a_journal_without_a_whole_line, a_stop_leaves_long_jobs_to_the_next_start, a_full_disk_loses_nothing,
          replies_wait_for_the_journal]
