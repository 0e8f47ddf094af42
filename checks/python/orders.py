#!/usr/bin/env python3
"""Orders hosts to stop and to rotate, and checks the dumps of run folders. What is wanted comes from docs/HOST.md.

usage: checks/python/orders.py, at the top of the repository. It needs no built program.
"""
import contextlib
import json
import os
import re
import signal
import sys
import time

sys.path.insert(0, os.path.abspath("python"))

from calls import Calls
from fake_host import FakeHost, Folder, closed, term
from serving import arena_command, arena_process

from arena.host import RunFolder

SECONDS = r"\d+\.\d s after the order"


def hosts_are_stopped(it):
    with FakeHost(slow=0.2) as host:
        def stopped(*words, **more):
            """A call that may not return before the host has closed all and given its lock back."""
            done = arena_command(*words, **more)
            assert host.ended.is_set() and not RunFolder(host.path).is_held() and not os.path.exists(host.file("socket"))
            return done

        it.call("stop", host.path, out=re.compile(rf"{host.path}: the host has ended, {SECONDS}\n"), how=stopped)
        it.call("stop", host.path, status=11, err=f"^arena: {host.path}: no arena-host runs here\n$")
    with FakeHost() as host:
        it.call("stop", host.path, "--json", out=re.compile(r'\{"another":false,"ended":true,"seconds":\d+\.\d+\}\n'),
                how=arena_process)
    with FakeHost(again=True) as host:
        it.call("stop", host.path, out=re.compile(rf".*: the host has ended, {SECONDS}; another one runs there now\n"))
        assert os.path.exists(host.file("socket"))
    with FakeHost() as host:
        os.unlink(host.file("status.json"))  # it writes its first status when it is ordered to stop
        closes, host._close_all = host._close_all, lambda: (host.tell(), host._end.wait(0.2), closes())
        it.call("stop", host.path, out=re.compile(rf".*: the host has ended, {SECONDS}\n"))
        assert host.ended.is_set()
    with FakeHost(deaf=True) as host:
        for _ in range(2):  # the second time the socket is gone already
            it.call("stop", host.path, "--wait", "0.1", status=7, err="ordered to stop and still runs after 0.1 s; .*"
                    f"`arena status {host.path}`\n$")
            assert not os.path.exists(host.file("socket"))


def hosts_are_rotated(it):
    with FakeHost(number=5, tenants=("acme", "beta")) as host:
        it.call("rotate", host.path, out=re.compile(rf"{host.path}: acme.000006, beta.000006 served, {SECONDS}\n"))
        assert not os.path.exists(host.file("rotate"))
        assert [one["state"] for one in host.open] == ["finishing", "finishing", "serving", "serving"]
        it.call("rotate", host.path, "--only", "beta", out=re.compile(rf"{host.path}: beta.000007 served, {SECONDS}\n"))
        it.call("rotate", host.path, "--json", out=re.compile(r'\{"seconds":\d+\.\d+,"terms":\{"acme":7,"beta":8\}\}\n'))
        it.call("rotate", host.path, "--only", "gamma", status=7, err="no term of gamma serves, so none was asked for")
    with FakeHost(deaf=True) as host:
        for _ in range(2):  # the second time the order is there already
            it.call("rotate", host.path, "--wait", "0", status=7, err=r"/rotate: the host has not taken the order within "
                    r"0 s; remove the file to take the order back\n$")
            assert os.path.exists(host.file("rotate"))
    with FakeHost(stuck=True) as host:
        it.call("rotate", host.path, "--wait", "1", status=7, err="the host took the order, and older terms still serve after "
                "1 s; its standard error says why, .*`arena lint`")


def orders_need_a_host(it):
    with Folder() as folder:
        folder.write(folder.status(term(1)))
        for file in ("socket", "lock"):  # what a killed host left
            with open(folder.file(file), "w"):
                pass
            for order in ("stop", "rotate"):
                it.call(order, folder.path, status=11, err=f"^arena: {folder.path}: no arena-host runs here\n$")
        assert os.path.exists(folder.file("socket")) and not os.path.exists(folder.file("rotate"))
        with contextlib.closing(folder.lock()):
            folder.write(b"{")
            it.call("rotate", folder.path, status=11, err="status.json: no JSON")
            assert not os.path.exists(folder.file("rotate"))
    for order in ("stop", "rotate", "check-dumps"):
        it.call(order, status=2, err="arguments are required: D", ARENA_RUN="/nowhere")
    it.call("stop", "/nowhere", status=11, err="^arena: /nowhere: no arena-host runs here; there is no such folder\n$")
    it.call("stop", "/nowhere", "--wait", "-1", status=2, err="a number of seconds, 0 or more")
    it.call("rotate", "/nowhere", "--wait", "nan", status=2, err="a number of seconds, 0 or more")


def host_that_ends_does_not_rotate(it):
    """The host takes the order and ends at once, without a status, or with a last one in which nobody is served, some time
    before it gives its lock back."""
    for last_status in (False, True):
        with FakeHost() as host:
            host._rotate = lambda order: (os.unlink(host.file(order)), os.unlink(host.file("socket")))
            host._close_all = lambda: (FakeHost._close_all(host), time.sleep(0.3)) if last_status else None
            it.call("rotate", host.path, status=11, err="the host ended before a new term served\n$")


def hosts_are_run(it):
    with Folder() as folder:
        def program(name, *lines):
            """The path of a stand-in for arena-host, of these lines of the shell."""
            path = folder.file(name)
            with open(path, "w") as text:
                text.write("\n".join(["#!/bin/sh", *lines, ""]))
            os.chmod(path, 0o700)
            return path

        words = program("words", 'echo "$*"', "exit 3")
        for rest in ("--config", "c", "--json"), ("--", "--config", "c", "--json"):
            it.call("host", "--program", words, folder.path, *rest, status=3, how=arena_process,
                    out=f"--config c --json --run {folder.path}\n")
        it.call("host", folder.path, status=3, how=arena_process, ARENA_HOST=words, out=f"--run {folder.path}\n")
        # Looks for so many fifths of a second whether its socket is removed: for long where that must come, on any
        # machine.
        slow = program("slow", "kill -$1 $PPID; sleep 0.3; : > $4/socket; looks=$2",
                       "while [ $looks -gt 0 ]; do sleep 0.2; [ -e $4/socket ] || exit 0; looks=$((looks - 1)); done",
                       "exit 4")
        for name in ("TERM", "INT", "HUP"):  # before there is a socket
            for handler, looks, status in ((signal.SIG_DFL, "300", 0), (signal.SIG_IGN, "5", 4)):
                before = signal.signal(signal.Signals[f"SIG{name}"], handler)
                it.call("host", "--program", slow, folder.path, name, looks, status=status, how=arena_process)
                signal.signal(signal.Signals[f"SIG{name}"], before)
        killed = program("killed", "kill -9 $$")
        it.call("host", "--program", killed, folder.path, status=137, how=arena_process)
        limited = program("limited", "kill -XFSZ $$", "exit 5")  # what comes with a write beyond `ulimit -f`
        it.call("host", "--program", limited, folder.path, status=5, how=arena_process)
        it.call("host", "--program", "/nowhere/host", folder.path, status=10, err="^arena: /nowhere/host: No such file or directory\n$")
        it.call("host", "--program", folder.path, folder.path, status=10, err=": Permission denied\n$")
        with FakeHost() as host:
            it.call("host", "--program", words, host.path, status=11, err=f"^arena: {host.path}: an arena-host runs here already\n$")


def dumps_are_checked(it):
    with Folder() as folder:
        script = folder.judge()
        for name in ("beta.000009", "acme.1000000", "acme.999999", "acme.999998"):
            folder.dump(f"{name}.jsonl")
        for name in ("readme.txt", "acme.jsonl", "acme.12.jsonl", "Acme.000001.jsonl", "acme.0000001.jsonl"):
            folder.dump(name, "no")  # none of these is a dump of a host
        it.call("check-dumps", folder.path, "--program", script, out="acme.999998: yes\nacme.999999: yes\n"
                "acme.1000000: yes\nbeta.000009: yes\n4 dumps: 4 yes, 0 not; 0 in part, 0 missing\n")
        it.call("check-dumps", folder.path, "--tenant", "beta", "--color", "always", ARENA_SCRIPT=script,
                out="\x1b[32mbeta.000009: yes\x1b[0m\n1 dump: 1 yes, 0 not; 0 in part, 0 missing\n")
        it.call("check-dumps", folder.path, "--script", "/nowhere", status=10, err="^arena: /nowhere: No such file")
        folder.dump("beta.000010.jsonl", "no at step 4")
        it.call("check-dumps", folder.path, "-t", "beta", status=9, ARENA_SCRIPT=script,
                out="beta.000009: yes\nbeta.000010: no at step 4\n2 dumps: 1 yes, 1 not; 0 in part, 0 missing\n")
        folder.dump("beta.000010.jsonl", "bad line 1")
        path = folder.file("dumps/beta.0000")
        it.call("check-dumps", folder.path, "-t", "beta", "--json", status=9, ARENA_SCRIPT=script, out="".join(
            f'{{"file":"{path}{number}.jsonl","tenant":"beta","term":{int(number)},"verdict":"{verdict}"}}\n'
            for number, verdict in (("09", "yes"), ("10", "bad line 1")))
            + '{"amiss":true,"missing":0,"other":1,"parts":0,"yes":1}\n')
    with Folder() as folder:
        it.call("check-dumps", folder.path, out="0 dumps: 0 yes, 0 not; 0 in part, 0 missing\n", ARENA_SCRIPT=script)
        os.rmdir(folder.file("dumps"))
        it.call("check-dumps", folder.path, status=8, err="/dumps: No such file or directory", ARENA_SCRIPT=script)


def checked(it, folder, status, *lines, **more):
    """Checks the dumps of a folder; the last line is not compared, as it is elsewhere."""
    it.call("check-dumps", folder.path, status=status, ARENA_SCRIPT=folder.judge(),
            out=re.compile("".join(f"{re.escape(line)}\n" for line in lines) + r"\d+ dumps?: .*\n"), **more)


def parts_are_told(it):
    with Folder() as folder:
        folder.dump("acme.000004.jsonl")
        folder.dump("acme.000005.jsonl.part", "no")
        left = "acme.000005: part, a host was ended while it wrote it, and the next one removes it"
        folder.write(folder.status(term(6)))
        checked(it, folder, 9, "acme.000004: yes", left)
        with contextlib.closing(folder.lock()):
            checked(it, folder, 0, "acme.000004: yes", "acme.000005: part, a host writes it")


def missing_dumps_are_told(it):
    """Between the first and the last number of a tenant each is a dump, or the status says why there is none."""
    why = "missing, it was not written, or was removed"
    with Folder() as folder:
        for number in (3, 4, 7, 9, 500_000):
            folder.dump(f"acme.{number:06}.jsonl")
        yes = [f"acme.{number:06}: yes" for number in (3, 4, 7, 9, 500_000)]
        checked(it, folder, 9, *yes[:2], f"acme.000005 to acme.000006: {why}", yes[2], f"acme.000008: {why}", yes[3],
                f"acme.000010 to acme.499999: {why}", yes[4])
        os.unlink(folder.file("dumps/acme.500000.jsonl"))
        folder.write(folder.status(term(8), term(10), closed=[
            closed(5, "beta"), closed(6, fault=3, dumped=False), closed(7), closed(9), closed(11, dumped=False),
            closed(7, "beta", dumped=False)]))
        lost = "it could not be written"
        lines = [*yes[:2], f"acme.000005: {why}", "acme.000006: missing, close fault 3", yes[2]]
        beta = ["beta.000005: missing, it was written, and is gone", f"beta.000006: {why}", f"beta.000007: missing, {lost}"]
        checked(it, folder, 9, *lines, f"acme.000008: {why}", yes[3], f"acme.000010: {why}", f"acme.000011: missing, {lost}",
                *beta)
        with contextlib.closing(folder.lock()):
            is_open = "none, the term is still open"
            checked(it, folder, 9, *lines, f"acme.000008: {is_open}", yes[3], f"acme.000010: {is_open}",
                    f"acme.000011: missing, {lost}", *beta)


def what_is_right_is_not_missing(it):
    """A tenant that came later or went, a term that is open, and dumps that were too old to be kept."""
    with Folder() as folder, contextlib.closing(folder.lock()):
        for name in ("acme.000007", "acme.000009", "beta.000000", "gone.000001"):
            folder.dump(f"{name}.jsonl")
        folder.write(folder.status(term(8), term(10), closed=[closed(6), closed(7), closed(9), closed(0, "beta")]))
        checked(it, folder, 0, "acme.000007: yes", "acme.000008: none, the term is still open", "acme.000009: yes",
                "beta.000000: yes", "gone.000001: yes")
        it.call("check-dumps", folder.path, "--json", "-t", "acme", ARENA_SCRIPT=folder.judge(), out=re.compile(
            r'(?s).*\n' + re.escape(json.dumps({"amiss": False, "last": 8, "tenant": "acme", "term": 8, "verdict":
                                                "missing", "why": "the term is still open"},
                                               separators=(",", ":"))) + r"\n.*"))
        os.unlink(folder.file("status.json"))
        checked(it, folder, 9, "acme.000007: yes", "acme.000008: missing, it was not written, or was removed",
                "acme.000009: yes", "beta.000000: yes", "gone.000001: yes")


def dumps_that_go_meanwhile(it):
    """The host removes the oldest dump while the one before is checked."""
    with Folder() as folder:
        for name in ("acme.000001", "beta.000001"):
            folder.dump(f"{name}.jsonl")
        script = folder.judge()
        with open(script, "a") as more:
            more.write(f"rm -f {folder.file('dumps/beta.000001.jsonl')}\n")
        it.call("check-dumps", folder.path, "--script", script, out="acme.000001: yes\nbeta.000001: removed meanwhile\n"
                "1 dump: 1 yes, 0 not; 0 in part, 0 missing\n")


CHECKS = [hosts_are_stopped, hosts_are_rotated, hosts_are_run, orders_need_a_host,
          host_that_ends_does_not_rotate, dumps_are_checked, parts_are_told, missing_dumps_are_told,
          what_is_right_is_not_missing, dumps_that_go_meanwhile]


def main():
    it = Calls("/nowhere")
    for check in CHECKS:
        check(it)
    print(f"{it.count} orders and checks of dumps: {it.differ} ended otherwise than is wanted")
    return bool(it.differ)


sys.exit(main())
