#!/usr/bin/env python3
"""Reads statuses of arena-host, right ones and wrong ones, by `arena status`. What is wanted comes from docs/HOST.md, whose
example is one of them.

usage: checks/python/host.py, at the top of the repository. It needs no built program.
"""
import contextlib
import copy
import json
import os
import re
import sys
import time
from unittest import mock

sys.path.insert(0, os.path.abspath("python"))

from fake_host import Folder, closed, example, reading, run_checks, slept, term
from serving import arena_process

from arena.host import RunFolder, StatusFault, parse_status, read_status

# What `arena status` prints of the example of docs/HOST.md.
SHOWN = """host: 1 tenant served, up 2 min 3 s, 77.5 MiB of memory
3 connections now of 64 at most, 47 so far, 2 ended without a hello and 1 idle ones
rotates at 50 %, keeps 8 dumps of a tenant, finishes within 10 s, durable: write
16 connections of a tenant at most, hellos refused for that: acme 5
workers: 1 with a tenant, 1 waiting for a call

terms, those of one tenant together
tenant  term  state                       age  entries      steps     %  asks  jobs  running  rows  waiting  workers  connected
acme     122  finishing (history)  1 min 53 s  524,300  1,048,576  50.0    88    40        2     7        3        -          -
acme     123  serving                    13 s       90  1,048,576   0.0     3     2        0     0        0        1          2

closed terms, the newest last
tenant  term  why       lasted  ms  entries  dump
acme     121  file  8 min 20 s  35    9,000  dumped
"""
# Members that may be null.
NULLS = {"memory", "terms[1].why", "workers[1].tenant", "workers[1].slot", "closed[0].fault"}


def example_is_shown(it, folder):
    folder.write(example())
    old = r"status.json: written \d+ s ago, and a host writes it each second; no arena-host runs here\n$"
    it.call("status", folder.path, status=11, out=SHOWN, err=old)
    it.call("status", folder.path, "--json", status=11, err=old,
            out=json.dumps(example(), separators=(",", ":"), sort_keys=True) + "\n")
    with contextlib.closing(folder.lock()):
        it.call("status", folder.path, status=11, out=SHOWN, err="the host that runs here writes it no more")


def status_of_now_is_done(it, folder):
    places = ("acme", 0), ("beta", 1), ("acme", 1), (None, None)
    workers = [{"worker": number, "tenant": name, "slot": slot} for number, (name, slot) in enumerate(places)]

    def of_now():
        at = int(time.time())
        terms = term(7, steps=200, entries=50, began=at), term(3, "beta", began=at)
        return folder.status(*terms, workers=workers, at=at, closed=[
            closed(5, fault=5, dumped=False, lost=2), closed(5, "beta", dumped=False), closed(6)])

    rows = re.compile(r"(?s)host: 2 tenants served, .*\nworkers: 3 with a tenant, 1 waiting for a call\n.*"
                      r"\nacme +7 +serving +0 s +50 +200 +25\.0 +0 +0 +0 +0 +0 +2 +0\nbeta +3 +serving +0 s +0 +10,000 +0\.0 +0 +0 +0 +0 +0 +1 +0\n.*"
                      r"\nacme +5 .* 2 jobs lost; close fault 5\nbeta +5 .* no dump\nacme +6 .* dumped\n")
    with folder.fresh(of_now):
        it.call("status", folder.path, out=rows, how=arena_process)
        it.call("status", out=rows, ARENA_RUN=folder.path)
        it.call("status", folder.path, out=rows, ARENA_RUN="/nowhere")
    folder.write(folder.status())
    it.call("status", folder.path, out=re.compile(r"host: no tenant is served .*\n.*\n.*\n"))


def missing_ones_are_said(it, folder):
    it.call("status", status=2, err="^arena: no run folder of arena-host is named; give it as the word D, or set "
            "ARENA_RUN\n$")
    it.call("status", "/nowhere", status=11, err="^arena: /nowhere: no such folder; name the one of `arena-host --run`")
    os.unlink(folder.file("status.json"))
    it.call("status", folder.path, status=11, err="status.json: not there; no arena-host has written it")
    it.call("top", folder.path, status=11, err=": no arena-host runs here\n$")
    it.call("top", "/nowhere", status=11, err="^arena: /nowhere: no arena-host runs here; there is no such folder\n$")
    it.call("top", folder.path, "--every", "-1", status=2, err="a number of seconds, 0 or more")
    with contextlib.closing(folder.lock()):
        it.call("top", folder.path, status=11, err="status.json: not there")
    os.mkdir(folder.file("status.json"))
    it.call("status", folder.path, status=8, err="status.json: Is a directory")
    os.rmdir(folder.file("status.json"))


def locks_that_may_not_be_opened(it, folder):
    """Who may read the status alone is told by that whether a host runs."""
    folder.write(folder.status(term(7)))
    denied = mock.patch("arena.host.folder.os.open", mock.Mock(side_effect=PermissionError(13, "Permission denied")))
    with denied, slept(lambda seconds: None, lambda seconds: folder.write(folder.status(at=time.time() - 60))):
        it.call("status", folder.path, out=re.compile("(?s)host: .*"))
        it.call("top", folder.path, status=11, out=re.compile(r"(?s)(host: .*\n\n){2}"), err=": the host has gone\n$")
        it.call("status", folder.path, status=11, out=re.compile("(?s)host: .*"), err="; no arena-host runs here\n$")
        it.call("stop", folder.path, status=8, err="Permission denied")


def nonsense_is_told(it, folder):
    """Texts that are no status have a message and a status, and never a traceback."""
    whole, two = json.dumps(example()), example()
    two["terms"][1]["term"] = 121
    surrogate = whole.replace('"acme"', '"\\ud800"')
    for text, said in (("", "empty"), (" \n", "empty"), (whole[:-1], "no JSON"), ("null", "the whole is an object"),
                       ("[" * 5000, "no JSON"), ("NaN", "no JSON"), (surrogate, "no JSON"), ("\xff", "no JSON"),
                       ("{}", "version is a text, not missing; this is not a status of arena-host"),
                       (whole.replace("50,", "5e1,", 1), "rotate_at is a whole number from 0 on, not 50.0"),
                       (json.dumps(two), r'terms has term "acme\.000121" twice'),
                       (" " * (16 * 1024 * 1024) + whole, "more than 16,777,216 bytes")):
        folder.write(text.encode("latin-1"))
        it.call("status", folder.path, status=11, err=f"^arena: {re.escape(folder.path)}/status.json: {said}[^\\n]*\\n$")
    with contextlib.closing(folder.lock()):
        folder.write(whole.encode()[:100])
        it.call("top", folder.path, status=11, err=r"status.json: no JSON: [^\n]*\n$")


def places(value, path=""):
    """Each member of a status, with its path and the object or list that it is in."""
    for key, inner in (value.items() if isinstance(value, dict) else enumerate(value)):
        here = f"{path}[{key}]" if isinstance(key, int) else f"{path}.{key}" if path else key
        yield here, value, key
        if isinstance(inner, dict | list):
            yield from places(inner, here)


def refused(value, path):
    """Whether a status is refused, with a message that names the place."""
    try:
        parse_status(json.dumps(value).encode())
    except StatusFault as fault:
        return f"status.json: {path} is " in str(fault)
    return False


def changed(path, change):
    """The example, with a change at a path."""
    value = copy.deepcopy(example())
    _, inside, key = next(it for it in places(value) if it[0] == path)
    change(inside, key)
    return value


def every_member_is_looked_at():
    """A member that is missing, null where it may not be, of another type or negative is refused; one more is passed
    over."""
    for path, inside, key in list(places(example())):
        if isinstance(inside, dict):
            assert refused(changed(path, lambda it, key: it.pop(key)), path), path
        assert path in NULLS or refused(changed(path, lambda it, key: it.__setitem__(key, None)), path) or (
            path in ("terms[0].why", "workers[0].tenant", "workers[0].slot")), path
        assert refused(changed(path, lambda it, key: it.__setitem__(key, -1)), path), path
        assert refused(changed(path, lambda it, key: it.__setitem__(key, 1.5)), path), path
        if inside[key] is not True:
            assert refused(changed(path, lambda it, key: it.__setitem__(key, True)), path), path
        if isinstance(inside[key], str) and key not in ("tenant", "version"):
            assert refused(changed(path, lambda it, key: it.__setitem__(key, "dance")), path), path
    assert refused(changed("terms[0].steps", lambda it, key: it.__setitem__(key, 0)), "terms[0].steps")
    more = changed("time", lambda it, key: it.__setitem__("more", [None]))
    assert parse_status(json.dumps(more).encode())[0] == parse_status(json.dumps(example()).encode())[0]


def each_cut_is_refused():
    whole = json.dumps(example()).encode()
    for end in range(len(whole)):
        try:
            parse_status(whole[:end])
        except StatusFault:
            continue
        raise AssertionError(f"the first {end} bytes were taken")


def times_are_as_fine_as_the_file_tells():
    """The file's own time is taken if it agrees with the one that it holds, which is in whole seconds."""
    with Folder() as folder:
        for modified, written in ((1000.25, 1000.25), (1001.75, 1001.75), (1002.5, 1000.0), (999.5, 1000.0)):
            folder.write(folder.status(at=1000), modified)
            assert read_status(RunFolder(folder.path)).written == written, (modified, written)


def five_seconds_are_fresh():
    it = reading(1000.0)
    assert [it.stale(now) is None for now in (994, 995, 1000, 1005.9, 1006)] == [False, True, True, True, False]
    assert it.stale(1006) == "written 6 s ago, and a host writes it each second"
    assert it.stale(990) == "its time is 10 s ahead of the clock here"


CALLED = [example_is_shown, status_of_now_is_done, missing_ones_are_said, locks_that_may_not_be_opened, nonsense_is_told]
CHECKS = [every_member_is_looked_at, each_cut_is_refused, times_are_as_fine_as_the_file_tells, five_seconds_are_fresh]


sys.exit(run_checks("calls that watch a host", CALLED, CHECKS))
