#!/usr/bin/env python3
"""Interrupts `arena shell` and `arena run`, as from the keyboard: the next command does not get the reply to the one before, and a
job that is given up is cancelled, or its number is said.

usage: checks/python/interrupted_commands.py, at the top of the repository. It needs no built program: the server is one in Python
that answers by docs/PROTOCOL.md, or wrongly.
"""
import json
import os
import signal
import subprocess
import sys
import time

import paths  # where the package is
from answering import answering
from calls import by_keyboard
from conversing import COMPLETE, PATIENCE, run_checks
from serving import SEVEN, arena_command, arena_process, environment_of


def the_shell_goes_on_after_an_interrupt():
    """Ctrl-C in a `wait`: the next command does not get that job's value, nor wait for it."""
    def holds(it):
        it.hello()
        it.next()
        it.answer('{"priority":"low","reserved":0,"slots":1}')
        it.next()
        os.kill(pid[0], signal.SIGINT)
        it.next()  # nothing: the shell has gone to another connection

    def next_one(it):
        it.hello()
        it.next()
        it.answer(COMPLETE.format(2))

    pid = []
    with answering(holds, next_one) as path:
        master, slave = os.openpty()
        how = {"stdin": slave, "stdout": subprocess.PIPE, "stderr": subprocess.PIPE, "text": True,
               "env": environment_of({"TERM": "dumb", "XDG_STATE_HOME": os.path.dirname(path)}), "preexec_fn": by_keyboard}
        shell = subprocess.Popen([sys.executable, "-m", "arena", "-s", path, "-t", "acme", "--timeout", "20", "shell"], **how)
        pid.append(shell.pid)
        os.write(master, b"wait 1\npoll 2\nquit\n")
        out, err = shell.communicate(timeout=PATIENCE)
        os.close(master)
        os.close(slave)
    assert "200" in out and "100" not in out, (out, err)
    assert "interrupted" in err and "anew" in err, err


LIMITS = '{"priority":"low","reserved":0,"slots":1}'


def takes_a_job(it):
    """Takes a job from `arena run`, whose number is 5, and is asked to collect it."""
    it.hello()
    assert it.next() == b'{"op":"arena"}\n'
    it.answer(LIMITS)
    assert it.next().endswith(b'"op":"submit"}\n')
    it.answer('{"job":5}')
    assert it.next() == b'{"job":5,"op":"collect"}\n'


def a_run_that_is_given_up_says_its_number():
    def has_no_outcome(it):
        takes_a_job(it)
        it.next()

    with answering(has_no_outcome) as path:
        done = arena_process("run", "-", "--timeout", "1.5", "-s", path, "-t", "acme", stdin=json.dumps(SEVEN))
    assert done.returncode == 7 and done.stdout == "" and "job 5: no outcome within 1.5 s; it goes on" in done.stderr, done
    assert "arena wait 5" in done.stderr and "arena cancel 5" in done.stderr, done


def an_interrupted_run_cancels_its_job():
    """Each reply to the cancel, and what is said of it."""
    for reply, words in (('{"first":true,"job":5}', "job 5 is cancelled"), ('{"first":false,"job":5}', "job 5 has ended"),
                         ('{"code":6,"error":"unknown_job"}', "job 5 goes on, as it could not be cancelled: ")):
        pid, asked = [], []

        def is_interrupted(it, pid=pid):
            takes_a_job(it)
            while not pid:
                time.sleep(0.01)
            os.kill(pid[0], signal.SIGINT)
            left.append(it)

        def is_asked_to_cancel(it, asked=asked, reply=reply):
            it.hello()
            asked.append(it.next())
            it.answer(reply)

        left = []
        with answering(is_interrupted, is_asked_to_cancel) as path:
            words_of_run = [sys.executable, "-m", "arena", "run", "-", "-s", path, "-t", "acme"]
            run = subprocess.Popen(words_of_run, stdin=subprocess.PIPE, stdout=subprocess.PIPE, stderr=subprocess.PIPE,
                                   text=True, env=environment_of({}), preexec_fn=by_keyboard)
            pid.append(run.pid)
            out, err = run.communicate(json.dumps(SEVEN), timeout=PATIENCE)
        assert run.returncode == 130 and out == "" and err.startswith(f"arena: {words}"), (run.returncode, out, err)
        assert err.endswith("interrupted\n") and asked == [b'{"job":5,"op":"cancel"}\n'], (err, asked)


def a_tenant_without_slots_for_workers_executes():
    def session(it):
        it.hello()
        it.next()
        it.answer('{"priority":"low","reserved":2,"slots":2}')
        asked.append(it.next())
        it.answer(COMPLETE.format(1))

    for words in ((), ("--execute",)):
        asked = []

        def executes(it):
            it.hello()
            asked.append(it.next())
            it.answer(COMPLETE.format(1))

        with answering(executes if words else session) as path:
            done = arena_command("run", "-", *words, "-s", path, "-t", "acme", stdin=json.dumps(SEVEN))
        assert done.stdout == "100\n" and asked[0].endswith(b'"op":"execute"}\n'), (done, asked)


CHECKS = (the_shell_goes_on_after_an_interrupt, a_run_that_is_given_up_says_its_number,
          an_interrupted_run_cancels_its_job, a_tenant_without_slots_for_workers_executes)

if __name__ == "__main__":
    run_checks("interrupted commands", CHECKS)
