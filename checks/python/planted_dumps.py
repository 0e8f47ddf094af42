"""Dumps that the real server made of jobs with something to find in them, and what `arena stat` finds."""
import json

from serving import COUNT, DIVIDES, FIB, PATIENCE, SEVEN, Server, arena_command, job, tenant

import arena


def statistics(path, *words):
    """What `arena stat --json` says of a dump."""
    done = arena_command("stat", path, "--json", *words)
    assert (done.returncode, done.stderr) == (0, ""), done
    return json.loads(done.stdout)


def advice(found, about):
    """The numbers of the jobs of each piece of advice about something, and its text."""
    return [(it["jobs"], it["text"]) for it in found["advice"] if it["about"] == about]


def slow_job_is_found():
    """Ten jobs of 172 instructions, and one of 80,003 that spawns nothing: set, jz and ret once, and 4 for each of
    20,000."""
    with Server(tenant(slots=3, reserved=1)) as server:
        with arena.Client(server.path, "acme", timeout=PATIENCE) as client:
            for number in range(10):
                assert client.execute(FIB).value == 8
                if number == 4:
                    client.execute({**COUNT, "args": [20_000, 0]})
        found = statistics(server.dump())
    slow = found["jobs"][5]
    assert (slow["work"], slow["span"], slow["parallelism"], slow["rows"]) == (80_003, 80_003, 1.0, 1), slow
    # A leaf has 4 instructions. An inner task spawns its tasks at its 6th and 8th instruction, and after its wait it
    # returns: the longest chain of fib(n) is that of fib(n - 1) and 8, that of fib(2) is 14.
    assert {(it["work"], it["span"], it["rows"], it["fuel_used"]) for it in found["jobs"]
            if it["job"] != 6} == {(172, 46, 25, 172)}
    (jobs, text), = advice(found, "slow")
    assert jobs == [6] and "98 % of all" in text and "let it spawn tasks" in text, text
    assert not advice(found, "fuel") and not advice(found, "workers")


def job_near_its_fuel_is_found():
    """A job that needs 172 has 180; others have 1,000; one has a fault in a line of a source."""
    with Server(tenant(slots=3, reserved=1)) as server:
        with arena.Client(server.path, "acme", timeout=PATIENCE) as client:
            for fuel in (1000, 180, 1000):
                client.execute({**FIB, "fuel": fuel})
            client.execute(DIVIDES)
        with open(server.file("map"), "w") as it:
            json.dump({"file": "divides.job", "procedures": [{"name": "main", "lines": [2, 3, 4]}],
                       "procs": DIVIDES["procs"]}, it)
        found = statistics(server.dump(), "--map", server.file("map"))
    (jobs, text), = advice(found, "fuel")
    assert jobs == [2] and "95.6 %" in text and "172 of 180" in text, text
    assert found["jobs"][3]["fault"] == 1
    place = found["jobs"][3]["fault_place"]
    assert place.startswith("divides.job:3: row 76, procs[0][1] div 2 2 3, in entry "), place
    (jobs, text), = advice(found, "fault")
    assert jobs == [4] and "divides.job:3" in text
    assert not advice(found, "slow") and not advice(found, "workers")


def statistics_of_a_kept_worker(hog):
    """What `arena stat` finds of beta, which polls a job beside an empty slot while the one worker is with acme, and of
    acme, whose three jobs came at once; or nothing, if the machine was too busy for that to be seen."""
    with Server(tenant(slots=1, reserved=0), tenant("beta", slots=1, reserved=0), workers=1) as server:
        with arena.Client(server.path, "acme") as acme, arena.Client(server.path, "beta") as beta:
            with acme.pipeline() as line:
                for _ in range(3):
                    line.submit(hog)
            with beta.pipeline() as line:
                line.submit(SEVEN)
                polls = [line.poll(1) for _ in range(40)]
            beta_waited = arena.Running(1) in {it.result() for it in polls}
            assert beta.collect(1) == arena.Complete(7, 1)
        server.dump("acme")
        found, other = statistics(f"{server.dumps}/beta.jsonl"), statistics(f"{server.dumps}/acme.jsonl")
    came_at_once = max(it["asked"] for it in other["jobs"]) < min(it["ended"] for it in other["jobs"])
    return (found, other) if beta_waited and came_at_once else None


def tenant_that_waits_for_workers_is_found():
    """One worker, which other jobs keep, in the first of twenty runs in which the jobs met as they should."""
    hog, cost = {**COUNT, "args": [240_000, 0]}, 960_003
    runs = (statistics_of_a_kept_worker(hog) for _ in range(20))
    seen = next((run for run in runs if run), None)
    assert seen, "twenty times acme's jobs were over before beta's, or before they had all come"
    found, other = seen
    (jobs, text), = advice(found, "workers")
    assert jobs == [1] and "a slot was empty" in text and "raise `workers`" in text, text
    assert found["jobs"][0]["waited_instructions"] == 0 and found["asks"]["poll"] == 40
    assert advice(found, "polls")
    texts = [text for _, text in advice(other, "workers")]
    assert texts and "slots were busy" in texts[0] and "raise `slots`" in texts[0], texts
    # Each job waited for those before it, the first of which was running when it came.
    for before, it in enumerate(other["jobs"]):
        assert (before - 1) * cost < it["waited_instructions"] <= before * cost, it


def history_that_fills_is_found():
    """A job of 172 instructions in 88 entries, in a history of 100; and one more, which does not end."""
    with Server(tenant(slots=1, reserved=1, steps=100)) as server:
        with arena.Client(server.path, "acme") as client:
            client.execute(FIB)
            try:
                client.execute(FIB)
                raise AssertionError("more than 100 entries")
            except arena.HistoryFull:
                pass
        found = statistics(server.dump())
    assert (found["entries"], found["fill"]) == (100, 1.0)
    assert "the history is full" in advice(found, "history")[0][1]
    assert "arena-host opens another term" in advice(found, "history")[0][1]
    assert [it["outcome"] for it in found["jobs"]] == ["8", "running"]


def is_found() -> int:
    """Makes the dumps, and looks for what is in them; how many there are."""
    checks = (slow_job_is_found, job_near_its_fuel_is_found, tenant_that_waits_for_workers_is_found,
              history_that_fills_is_found)
    for check in checks:
        check()
    return len(checks)
