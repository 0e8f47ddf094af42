"""Whether what clients saw, and how a server ended, is as it must be."""
import json
import signal
import subprocess
from collections.abc import Iterator
from dataclasses import dataclass, field
from pathlib import Path

from drawing import Ask, Player, Scenario
from jobs import JOBS, Job
from running import KILLED, OWN_END, Part, Run, Saw, acknowledged
from shared import not_kept

FULL, UNKNOWN, BUSY = 8, 6, 12
OUTLETS = ("thread 1:", "thread 2:")
"""The threads of a host that print: they wait for lines until the process ends."""
NAMING = ("poll", "collect", "cancel", "release", "execute")
ERRORS = {1: "line_too_long", 2: "bad_json", 3: "bad_request", 4: "bad_program", 6: "unknown_job", 8: "history_full", 12: "busy"}
BAD_LINE = {"code": 2, "error": "bad_json"}


class Wrong(Exception):
    """Something was not as it must be."""


@dataclass
class Tenant:
    """What is known of a tenant beside its clients' replies: its configuration, its jobs by their numbers, and whether its
    history became full."""

    config: dict
    jobs: dict[int, Job] = field(default_factory=dict)
    is_full: bool = False
    are_canceled: set[int] = field(default_factory=set)
    are_forgotten: bool = False
    firsts: set[int] = field(default_factory=set)
    epochs: set[int] = field(default_factory=set)
    acknowledged: set[int] = field(default_factory=set)
    outcomes: dict[int, dict] = field(default_factory=dict)
    """Those that clients were told."""
    released: set[int] = field(default_factory=set)
    gone: set[int] = field(default_factory=set)
    """Jobs whose release was told before the process began."""
    has_terms: bool = False
    is_stopped: bool = False
    """Whether its host is stopped while clients ask."""


def wants(condition: bool, *what: object) -> None:
    """Raises if something is not so."""
    if not condition:
        raise Wrong(" ".join(map(str, what)))


def job_sent(sent: dict) -> Job:
    """The job of the table that was sent."""
    found = [it for it in JOBS if it.sent == sent]
    wants(len(found) == 1, "a job that nobody sent:", sent)
    return found[0]


def base_of(dump: str, tenant: Tenant) -> int:
    """After which number the jobs of a dump are numbered: in a host each term has as many numbers as its history has steps."""
    _, _, term = dump.partition(".")
    return int(term or 0) * tenant.config["steps"]


def tenants_of(scenario: Scenario, run: Run) -> dict[str, Tenant]:
    """The tenants, with the jobs that their dumps have by number. What each gives is not taken from there."""
    tenants = {it["name"]: Tenant(it, has_terms=bool(scenario.words)) for it in scenario.config["tenants"]}
    for dump, text in run.dumps.items():
        tenant = tenants[dump.split(".")[0]]
        base = base_of(dump, tenant)
        entries = [json.loads(line) for line in text.splitlines()[1:]]
        tenant.is_full |= len(entries) >= tenant.config["steps"]
        for entry in entries:
            request, reply = entry.get("request", {}), entry.get("reply", {})
            if request.get("op") in ("submit", "execute") and "job" in reply:
                number = base + reply["job"]
                wants(number not in tenant.jobs, dump, "has a number that came before:", reply)
                tenant.jobs[number] = job_sent(request["job"])
            if request.get("op") == "cancel":
                tenant.are_canceled.add(base + request["job"])
            if request.get("op") in ("retire", "release") or request.get("release"):
                tenant.are_forgotten = True
    return tenants


def number_of(ask: Ask, replies: list[dict]) -> int:
    """The job's number that a request named."""
    if ask.of_reply is None:
        return ask.job or 0
    return replies[ask.of_reply].get("job", 0) if ask.of_reply < len(replies) else 0


def judge_status(tenant: Tenant, number: int, reply: dict, may_run: bool) -> None:
    """A status of a job is its outcome, or says that it is canceled, if somebody canceled it, or that it runs, if that may be. Its
    outcome stays what it was."""
    wants(reply.get("job") == number, "the status of another job:", reply, "for", number)
    wants(number not in tenant.gone, "job", number, "was released, and then", reply)
    said = {key: value for key, value in reply.items() if key != "job"}
    if said == {"status": "running"} and may_run:
        return
    is_canceled = said == {"status": "canceled"} and number in tenant.are_canceled
    wants(is_canceled or number in tenant.jobs and said == tenant.jobs[number].outcome, "job", number, "is", said)
    before = tenant.outcomes.setdefault(number, said)
    wants(said == before, "job", number, "was", before, "and is", said)


def judge_error(tenant: Tenant, ask: Ask, number: int, reply: dict) -> None:
    """An error is one that the request may get."""
    code = reply["code"]
    wants(reply == {"code": code, "error": ERRORS.get(code)}, "an unknown error:", reply)
    may_be = {
        FULL: (tenant.is_full or tenant.is_stopped) and ask.op not in ("hello", "bad"),
        UNKNOWN: ask.op in NAMING and (tenant.are_forgotten or number not in tenant.jobs or (ask.of_reply is None and not ask.is_last)),
        BUSY: ask.op in ("retire", "release"),
    }
    wants(code == ask.job if ask.op == "bad" else may_be.get(code, False), ask.text, "got", reply)


def judge_reply(tenant: Tenant, ask: Ask, replies: list[dict], reply: dict) -> None:
    """A reply is one that the request may get under some schedule, and no other."""
    number = number_of(ask, replies)
    if "error" in reply:
        judge_error(tenant, ask, number, reply)
    elif ask.op == "hello":
        wants(reply == {"tenant": tenant.config["name"]}, ask.text, "got", reply)
    elif ask.op in ("submit", "execute"):
        made = reply.get("job", 0)
        wants(made in tenant.jobs, f"job {made} was acknowledged by the reply to {ask.op}, and no history has it")
        wants(ask.job is not None and tenant.jobs[made] == JOBS[ask.job], ask.text, "got", reply)
        wants(made not in tenant.acknowledged, "job", made, "was acknowledged twice")
        tenant.acknowledged.add(made)
        if ask.op == "execute":
            judge_status(tenant, made, reply, False)
        else:
            wants(reply == {"job": made}, ask.text, "got", reply)
    elif ask.op in ("poll", "collect"):
        judge_status(tenant, number, reply, ask.op == "poll" and not ask.is_last)
        tenant.released |= {number} if ask.release else set()
    else:
        judge_other(tenant, ask, number, reply)


def judge_other(tenant: Tenant, ask: Ask, number: int, reply: dict) -> None:
    """Requests that ask for no outcome."""
    if ask.op == "cancel":
        wants(reply in ({"first": True, "job": number}, {"first": False, "job": number}), ask.text, "got", reply)
        wants(not reply["first"] or number not in tenant.firsts, "two cancels of job", number, "were the first")
        tenant.firsts |= {number} if reply["first"] else set()
    elif ask.op == "release":
        wants(reply == {"released": number}, ask.text, "got", reply)
        tenant.released.add(number)
    elif ask.op == "retire":
        # Each term of a host counts its own.
        wants(list(reply) == ["epoch"] and (tenant.has_terms or reply["epoch"] not in tenant.epochs), ask.text, "got", reply)
        tenant.epochs.add(reply["epoch"])
    elif ask.op == "cells":
        wants(reply == {"count": reply.get("count"), "key": 0, "sum": 5 * reply.get("count", 0)}, ask.text, "got", reply)
        wants(0 <= reply["count"] <= tenant.config["slots"], ask.text, "got", reply)
    else:
        limits = {key: tenant.config[key] for key in ("priority", "reserved", "slots")}
        wants(ask.op == "arena" and reply == limits, ask.text, "got", reply)


def judge_client(tenant: Tenant, player: Player, seen: list[Saw], stopped_at: int | None, is_killed: bool) -> None:
    """Each reply answers the request of its place, and all came that had to: if the process was killed, those of which the client saw
    no end. The last one may answer the beginning of a line whose end came after the order to stop."""
    replies: list[dict] = []
    came = [json.loads(it.what[2:]) for it in seen if it.what.startswith("< ")]
    if stopped_at is not None and came[-1:] == [BAD_LINE] and any(it.what == "broken" for it in seen):
        came.pop()
    for reply in came:
        wants(len(replies) < len(player.asks), "a reply too many:", reply)
        judge_reply(tenant, player.asks[len(replies)], replies, reply)
        replies.append(reply)
    if player.hangs_up or tenant.is_full or tenant.is_stopped or len(replies) == len(player.asks):
        return
    lost = [it for it in seen if it.what in ("refused", "over", "cut", "broken", "over in a line")]
    if is_killed and not lost:
        return
    wants(bool(lost) and stopped_at is not None and lost[0].step > stopped_at, len(replies), "replies to", len(player.asks), "requests, and then", lost)


def judge_end(part: Part, lengths: dict[str, int], is_alone: bool) -> None:
    """A process ended in order, and nobody was left waiting, or it was killed as it was to be. So long are the dumps in the end, which
    are its own if it is alone."""
    run, scenario = part.run, part.scenario
    if scenario.kill and run.end == KILLED:
        wants(run.status == -signal.SIGKILL, "status", run.status, run.fault)
        return judge_host(scenario, run, lengths)
    wants(run.end == OWN_END, f"it ended with: {run.end};", *[f"\n    {it}" for it in run.waiting])
    # One that has told of its own end may be on its last steps.
    left = [it for it in run.waiting if "may run" not in it and not (scenario.words and it.startswith(OUTLETS))]
    wants(not left, "threads are left waiting:", left)
    if scenario.words:
        wants(run.status == 0, "status", run.status, run.fault)
        judge_host(scenario, run, lengths)
        judge_terms(run, lengths, is_alone)
    else:
        closed = [f"{it['name']}: closed, {lengths.get(it['name'], 0)} entries" for it in scenario.config["tenants"]]
        wants(run.lines == ["listening", *closed], "it printed", run.lines)
        wants((run.status, run.fault) == (0, ""), "status", run.status, run.fault)
    wants(not run.is_path_there, "the socket is still there")


def named(event: dict) -> str:
    """The name of the dump of the term that an event is about."""
    return f"{event['tenant']}.{event['term']:06}"


def events_of(run: Run) -> list[dict]:
    """What a host reported. A kill may have cut the last line."""
    return [json.loads(line) for line in (run.fault.splitlines() if run.end == OWN_END else run.fault.split("\n")[:-1])]


def judge_host(scenario: Scenario, run: Run, lengths: dict[str, int]) -> None:
    """A host reports no fault, and no job that is lost in a history which is not full, as far as it came, and prints how long each
    history is."""
    wants(all(line.startswith("{") for line in run.fault.splitlines()), "it said", run.fault)
    steps = {it["name"]: it["steps"] for it in scenario.config["tenants"]}
    lost = [it for it in events_of(run) if it.get("lost") and lengths.get(named(it), 0) < steps[it["tenant"]]]
    wants(not lost and not [it for it in events_of(run) if it["event"] == "fault"], "it said", run.fault)
    printed = run.lines if run.end == OWN_END else run.lines[:-1]
    closed = {f"{name}: closed, {length} entries" for name, length in lengths.items()}
    left = {named(it) for it in events_of(run) if it.get("left")}
    wants(printed[:1] in ([], ["listening"]), "it printed", printed)
    wants(closed.issuperset(it for it in printed[1:] if it.split(":")[0] not in left), "it printed", printed, "and left", closed)


def judge_terms(run: Run, lengths: dict[str, int], is_alone: bool) -> None:
    """A host that ended in order has closed each term that it opened, and each has its dump and its line, but for those that it left
    to a next start."""
    events = events_of(run)
    opened = sorted(named(it) for it in events if it["event"] == "opened")
    wants(opened == sorted(named(it) for it in events if it["event"] == "closed"), "terms:", run.fault)
    left = {named(it) for it in events if it.get("left")}
    dumped = [it for it in opened if it not in left]
    printed = sorted(it.split(":")[0] for it in run.lines[1:] if it.split(":")[0] not in left)
    wants(run.lines[:1] == ["listening"] and printed == dumped, "it printed", run.lines, "and opened", opened)
    wants(sorted(lengths) == dumped if is_alone else lengths.keys() >= set(dumped), "it left", sorted(lengths), "and opened", opened)


def judge_dumps(script: Path, run: Run) -> None:
    """Each dump is a history of its tenant."""
    for name, dump in run.dumps.items():
        done = subprocess.run([script, "check"], input=dump, capture_output=True, text=True)
        wants((done.stdout, done.stderr, done.returncode) == ("yes\n", "", 0), f"the dump of {name}:", done.stdout, done.stderr)


def know_of_terms(scenario: Scenario, tenants: dict[str, Tenant]) -> None:
    """In a host the jobs of a closed term are forgotten without an entry, and a request may find no history while it stops. A release
    that was told outlives the process."""
    for tenant in tenants.values():
        tenant.is_stopped = scenario.is_stopped
        tenant.gone |= tenant.released
    for player in scenario.players:
        if any(ask.op in ("retire", "release") or ask.release for ask in player.asks):
            tenants[player.tenant].are_forgotten = True


def judge_part(part: Part, tenants: dict[str, Tenant]) -> None:
    """What the clients of a process saw."""
    scenario, run = part.scenario, part.run
    if scenario.words:
        know_of_terms(scenario, tenants)
        for opened in (it for it in events_of(run) if it["event"] == "opened"):
            wants(opened["base"] == base_of(named(opened), tenants[opened["tenant"]]), "the numbers of a term:", opened)
    removed = [it.step for it in run.clients[-1] if it.what == "removed"]
    for player, seen in zip(scenario.players, run.clients, strict=True):
        if player.asks:
            stopped_at = removed[0] if scenario.is_stopped and removed else None
            judge_client(tenants[player.tenant], player, seen, stopped_at, run.end == KILLED)


def judge_kept(parts: list[Part], tenants: dict[str, Tenant]) -> None:
    """Each job that was acknowledged has its outcome in the folder of a host that has ended: the one that was told, if it was. Jobs
    that are forgotten need none, nor does a tenant of which a history is full."""
    run = parts[-1].run
    for name, tenant in tenants.items():
        canceled = {it["job"] for it in run.kept[name] if it["status"] == "canceled" and it["job"] in tenant.are_canceled}
        told = [(job, {"status": "canceled"} if job in canceled else tenant.jobs[job].outcome) for job in acknowledged(parts, name)]
        told = [(job, tenant.outcomes.get(job, outcome)) for job, outcome in told]
        for fault in not_kept([] if tenant.are_forgotten or tenant.is_full else told, run.kept[name]):
            wants(False, f"{name}:", fault)


def faults(parts: list[Part], script: Path | None) -> Iterator[str]:
    """What was not as it must be: the first thing that is found."""
    end = parts[-1]
    try:
        lengths = {name: len(text.splitlines()) - 1 for name, text in end.run.dumps.items()}
        for part in parts:
            judge_end(part, lengths, len(parts) == 1)
        if script:
            judge_dumps(script, end.run)
        if end.scenario.words:
            left = [it for it in events_of(end.run) if it.get("left")]
            wants(not left, "jobs had no outcome when nothing else was to be done:", left)
        tenants = tenants_of(end.scenario, end.run)
        for part in parts:
            judge_part(part, tenants)
        if end.scenario.words:
            judge_kept(parts, tenants)
    except Wrong as fault:
        yield str(fault)
