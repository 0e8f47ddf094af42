#!/usr/bin/env python3
"""Lets `arena advise` look at configurations that are unwise in one way each, and at those that are just wise enough.

usage: checks/python/advise.py, at the top of the repository. It needs no built program.
"""
import os
import re
import resource
import sys
import tempfile
from unittest import mock

sys.path.insert(0, os.path.abspath("python"))

from calls import Calls
from serving import tenant

from arena.advise import About, Machine, advice_of, bytes_of, memory_of_machine

GIB = 2**30
WISE = [tenant(), tenant("beta")]  # one worker slot each


def found(tenants, workers=2, **machine):
    """What is said of tenants: what it is about and of whom."""
    return [(it.about, it.tenant) for it in advice_of({"tenants": tenants, "workers": workers}, Machine(**machine))]


def tenants_without_worker_slots(it):
    text = (": tenant acme: reserved 2 of 2 slots, so no worker ever comes: a job that is submitted, or executed while all "
            "slots are taken, and a task that is posted run only if a row that waits takes them up; lower reserved to 1")
    path = it.file("all.json", {"tenants": [tenant(reserved=2)], "workers": 1})
    it.call("advise", path, status=1, out=f"{path}{text}, or raise slots to 3\n")
    it.call("advise", path, "--color", "always", status=1, out=re.compile(r"\x1b\[33m.*\x1b\[0m\n"))
    most = it.file("most.json", {"tenants": [tenant(slots=16, reserved=16)], "workers": 1})
    it.call("advise", most, status=1, out=re.compile(".* reserved 16 of 16 slots, .*; lower reserved to 15\n"))
    one = [tenant(slots=1, reserved=1), tenant("beta", slots=1, reserved=0)]
    assert found(one) == [(About.NO_WORKER_SLOT, "acme")] and found([tenant(reserved=1)]) == []


def fewer_workers_than_worker_slots(it):
    assert found(WISE, workers=2) == [] and found(WISE, workers=1) == [(About.FEW_WORKERS, "acme"),
                                                                       (About.FEW_WORKERS, "beta")]
    greedy = [tenant(slots=6, reserved=2), tenant("beta", slots=3, reserved=1)]  # 4 and 2 worker slots
    path = it.file("greedy.json", {"tenants": greedy, "workers": 4})
    it.call("advise", path, status=1, out=f"{path}: tenant acme: 4 workers for 6 worker slots, of which this tenant has "
            "4: while it has work it can keep all workers, and no other tenant gets one; raise workers to 6\n")
    assert found(greedy, workers=2) == [(About.FEW_WORKERS, "acme"), (About.FEW_WORKERS, "beta")]
    assert found(greedy, workers=5) == [(About.FEW_WORKERS, None)] and found(greedy, workers=6) == []
    it.call("advise", it.file("together.json", {"tenants": greedy, "workers": 5}), status=1, out=re.compile(
        ".*: all tenants: 5 workers for 6 worker slots: while some tenants have work they can keep all workers, and another "
        "one gets none; raise workers to 6\n"))
    assert found(greedy, workers=4, rotate_at=50) == []  # a host's workers share
    # With one tenant nobody waits for another, and one without worker slots waits for no worker.
    assert found([tenant(slots=16, reserved=0)], workers=1) == []
    assert found([tenant(slots=16, reserved=0), tenant("beta", reserved=2)], workers=1) == [(About.NO_WORKER_SLOT, "beta")]
    many = [tenant(f"t-{it}", slots=11, reserved=0) for it in range(3)]
    it.call("advise", it.file("many.json", {"tenants": many, "workers": 32}), status=1, out=re.compile(
        ".*: 32 workers for 33 worker slots: .*; raise workers to 32, the most, and give tenants fewer slots that are not "
        "reserved\n"))


def more_history_than_memory(it):
    """A tenant's history has room for `steps` times 104 bytes, 16 for each slot and 96 for each connection."""
    assert bytes_of(tenant(slots=2, steps=1000), 3) == 1000 * (104 + 2 * 16 + 3 * 96)
    largest = [tenant(f"t-{it}", slots=16, reserved=8, steps=1_048_576) for it in range(64)]
    assert round(sum(bytes_of(it, 64) for it in largest) / 1e9) == 436  # "some 440 GB" (docs/OPERATIONS.md)
    need = 2 * 10_000 * (104 + 2 * 16 + 64 * 96)
    assert found(WISE, memory=need) == [] and found(WISE, memory=need - 1) == [(About.MEMORY, None)]
    assert found(WISE, memory=2 * need, rotate_at=50) == []
    assert found(WISE, memory=2 * need - 1, rotate_at=50) == [(About.MEMORY, None)]
    assert found(WISE, memory=need // 2, connections=1) == [] and found(WISE, memory=None) == []
    # 2**20 steps of 104 + 16 + 96 bytes, and 2**12: 217 MiB.
    path = it.file("large.json", {"tenants": [tenant(slots=1, reserved=0, steps=2**20),
                                              tenant("beta", slots=1, reserved=0, steps=2**12)], "workers": 2})
    it.call("advise", path, "--memory", "0.125", "--connections", "1", status=1, out=f"{path}: all tenants: with 1 "
            "connection histories have room for 0.21 GiB, and keep programs besides; the machine has 0.12 GiB; acme's has "
            "the most, 0.21 GiB for 1,048,576 steps; lower steps, to 310,689 at most for each tenant, or --connections\n")
    it.call("advise", path, "--memory", "0.375", "--connections", "1", out=f"{path}: nothing to advise\n")
    it.call("advise", path, "--memory", "0.375", "--connections", "1", "--host", status=1, out=re.compile(
        ".*: with 1 connection histories have room for 0.42 GiB, 2 times, since a tenant has two terms while the host "
        "rotates, .* 0.42 GiB for 1,048,576 steps; lower steps, to 466,033 at most for each tenant, or --connections\n"))
    it.call("advise", path, "--memory", "1e-7", status=1, out=re.compile(".*; lower --connections, or have fewer tenants\n"))


def histories_that_are_short(it):
    # The most steps of which so many per cent are reached before the thousandth entry.
    for percent, steps in ((None, 999), (100, 999), (50, 1998), (33, 3027), (1, 99_900)):
        assert found([tenant(steps=steps)], rotate_at=percent) == [(About.SHORT_HISTORY, "acme")], (percent, steps)
        assert found([tenant(steps=steps + 1)], rotate_at=percent) == [], (percent, steps)
    path = it.file("short.json", {"tenants": [tenant(steps=10_000), tenant("beta", steps=1)], "workers": 2})
    it.call("advise", path, status=1, out=f"{path}: tenant beta: steps 1: after 1 entry the tenant answers `history_full` "
            "to all that follows; raise steps to 1,000 or more\n")
    it.call("advise", path, "--host", status=1, out=f"{path}: tenant beta: steps 1: after 1 entry the host opens "
            "its next term, at 50 %; raise steps to 2,000 or more\n")
    it.call("advise", path, "--host", "--rotate-at", "5", status=1, out=f"{path}: tenant acme: steps 10,000: after 500 "
            "entries the host opens its next term, at 5 %; raise steps to 20,000 or more\n"
            f"{path}: tenant beta: steps 1: after 1 entry the host opens its next term, at 5 %; raise steps to "
            "20,000 or more\n")


def memory_is_read(it):
    assert memory_of_machine(it.file("meminfo", "MemTotal:        2048 kB\nMemFree:  1 kB\n")) == 2048 * 1024
    assert memory_of_machine(it.file("none", "MemFree: 1 kB\n")) is memory_of_machine("/nowhere") is None
    path = it.file("wise.json", {"tenants": WISE, "workers": 2})
    with mock.patch("arena.command.advise.memory_of_machine", lambda: None):
        it.call("advise", path, out=f"{path}: nothing to advise\n", err="the memory of this machine is not known, so "
                "--memory has to say it")
        it.call("advise", path, "--memory", "16", out=f"{path}: nothing to advise\n")
    with mock.patch("arena.command.advise.memory_of_machine", lambda: 1024):
        it.call("advise", path, status=1, out=re.compile(r".*; the machine has 0\.00 GiB; .*\n"))


def words_and_files(it):
    path, wise = it.file("wise.json", {"tenants": WISE, "workers": 2}), '{"advice":[],"file":"-"}\n'
    with open(path) as config:
        it.call("advise", "-", "--json", "--memory", "16", stdin=config.read(), out=wise)
    two = it.file("two.json", {"tenants": [tenant(reserved=2, steps=10)], "workers": 1})
    it.call("advise", two, "--json", "--memory", "16", status=1, out=re.compile(
        r'\{"advice":\[\{"about":"no worker slot","tenant":"acme","text":".*","todo":".*"\},\{"about":"short history",'
        rf'"tenant":"acme",.*\],"file":"{re.escape(two)}"\}}\n'))
    it.call("advise", it.file("invalid.json", {"tenants": [], "workers": 1}), status=5, err="a list of 1 to 64 tenants")
    it.call("advise", it.file("broken.json", "{"), status=5, err="broken.json:1:2: no JSON")
    with open(path) as config:
        text = config.read()
    for command, words in (("lint", ()), ("advise", ("--memory", "16"))):
        it.call(command, it.file("longest.json", text.ljust(1_048_576)), *words, out=re.compile(".*longest.json: .*\n"))
        it.call(command, it.file("too_long.json", text.ljust(1_048_577)), *words, status=5,
                err="too_long.json: a configuration has at most 1,048,576 bytes, and this file has 1,048,577\n$")
    it.call("advise", "/nowhere", status=8, err="^arena: /nowhere: No such file or directory\n$")
    for words in (("--rotate-at", "0"), ("--rotate-at", "101"), ("--connections", "65"), ("--connections", "x"),
                  ("--memory", "0"), ("--memory", "nan"), ("--memory", "inf"), ()):
        it.call("advise", *(path, *words) if words else (), status=2, err=words[0] if words else "required: CONFIG")


def fewer_descriptors_than_a_host_needs(it):
    """Each connection takes a descriptor, and a host has 34 others."""
    need = 64 + 34
    assert found(WISE, rotate_at=50, descriptors=need) == found(WISE, descriptors=1) == []
    assert found(WISE, rotate_at=50, descriptors=need - 1) == [(About.DESCRIPTORS, None)]
    assert found(WISE, rotate_at=50, connections=1, descriptors=1 + 34) == []
    path = it.file("wise.json", {"tenants": WISE, "workers": 2})
    with mock.patch("arena.command.advise.descriptors", lambda: 90):
        it.call("advise", path, "--host", "--memory", "16", status=1, out=f"{path}: all tenants: 64 connections take up to 98 "
                "files, and a process may have 90 open here; start the host with `ulimit -n 98` or more\n")
        it.call("advise", path, "--host", "--memory", "16", "--connections", "32", out=f"{path}: nothing to advise\n")
        it.call("advise", path, "--memory", "16", out=f"{path}: nothing to advise\n")


CHECKS = [fewer_descriptors_than_a_host_needs, tenants_without_worker_slots, fewer_workers_than_worker_slots, more_history_than_memory,
          histories_that_are_short, memory_is_read, words_and_files]


def main():
    _, most = resource.getrlimit(resource.RLIMIT_NOFILE)
    resource.setrlimit(resource.RLIMIT_NOFILE, (most, most))  # so that nothing is said of it by the machine's own limit
    with tempfile.TemporaryDirectory() as folder:
        it = Calls(folder)
        for check in CHECKS:
            check(it)
    print(f"{len(CHECKS)} kinds of advice and their words; {it.count} calls: {it.differ} ended otherwise than is wanted")
    return bool(it.differ)


sys.exit(main())
