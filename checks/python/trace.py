#!/usr/bin/env python3
"""Replays histories and looks at what is said and drawn of them.

The replay must agree with the second evaluator of `checks/evaluator` at every entry of drawn histories: where each
row is, its registers and instruction, each job's fuel and outcome, and the cells. Pictures, pages and traces of such
histories must be well formed, and small dumps be drawn as their golden files. `arena stat` must find what was planted
in dumps of the real server.

usage: checks/python/trace.py [SEED [DUMPS]], at the top of the repository. The seed is 1, and 500 dumps are drawn, if
none is said. With the word `golden` it writes the golden files anew, which are then to be looked at. """
import collections
import contextlib
import io
import json
import os
import random
import re
import sys

sys.path[:0] = [os.path.abspath("python"), os.path.abspath("checks/evaluator"), os.path.abspath("checks/python")]

import drawn
import planted_dumps
from draws import Draws
from tenant import Tenant

from arena.trace import Replay, State, machine, replay
from arena.trace.dump import DumpFault, parse_dump

# What must come up in the drawn histories.
FINDS = ["root", "task", "post", "region", "returned", "dropped", "faulted", "fault 1", "fault 2", "fault 3", "fault 4",
         "fault 5", "exact", "within", "epoch", "asked", "arrived", "nested", "ran", "cells"]
WARM = machine.WARM
# One drawn history in so many is also drawn as a picture.
PICTURED = 20


def history_of(config, steps):
    """The lines of a history, each with the second evaluator's tenant after it."""
    tenant = Tenant(config)
    yield {"tenant": config}, tenant
    for step in steps:
        before, entry = tenant.entries, None
        if step["step"] == "ask":
            entry = {**step, "reply": tenant.ask(step["request"])}
        elif step["slot"] < config["slots"]:
            entry = {**step, **(tenant.arrive if step["step"] == "arrive" else tenant.advance)(step["slot"])}
        if tenant.entries > before:
            yield entry, tenant


def row_differs(row, wanted):
    """Whether a row of the replay is not as that of the evaluator."""
    if (row.number, row.kind.value, row.state.value, row.slot, row.made_on) != (
            wanted.number, wanted.kind, wanted.state, wanted.slot, wanted.made_on):
        return True
    if wanted.job.procs[row.proc] != wanted.instrs or (row.maker and row.maker.number) != (wanted.maker
                                                                                           and wanted.maker.number):
        return True
    if wanted.is_open():
        # Rows that wait in what is cancelled are dropped, so none of these is.
        is_cancelled = wanted.state == "live" and wanted.is_cancelled()
        return (row.at, row.registers, row.is_cancelled or row.job.is_stopped) != (wanted.at, wanted.registers, is_cancelled)
    return row.state is State.RETURNED and row.value != wanted.value


def outcome_of(job, is_open):
    """A job's outcome, by whether a row of it is open."""
    if is_open or job.fault is not None:
        return "running" if is_open else "fault"
    return "canceled" if job.is_cancelled else "complete"


def state_differs(state, rows, tenant, closed):
    """What is not as in the evaluator's tenant, or none. Rows that were compared after their end are not looked at
    again."""
    if len(rows) != len(tenant.rows):
        return f"{len(rows)} rows, not {len(tenant.rows)}"
    is_open = set()
    for wanted in tenant.rows:
        if wanted.number in closed:
            continue
        if row_differs(rows[wanted.number], wanted):
            return f"row {rows[wanted.number]}, not {wanted}"
        (is_open if wanted.is_open() else closed).add(wanted.job.number if wanted.is_open() else wanted.number)
    stacks = [[row.number for row in stack] for stack in tenant.stacks]
    if [[row.number for row in stack] for stack in state.stacks] != stacks:
        return f"stacks, not {stacks}"
    jobs = {job.number: (job.fuel, outcome_of(job, job.number in is_open), job.fault) for job in tenant.jobs
            if not job.is_retired}
    mine = {job.number: (job.left, job.outcome, job.fault and job.fault.code.value) for job in state.jobs.values()}
    if mine != jobs:
        return f"jobs {mine}, not {jobs}"
    if (state.cells, state.epoch) != (tenant.cells, tenant.epoch):
        return f"cells {state.cells}, not {tenant.cells}"
    return None


def history_differs(lines, seen, texts):
    """Whether the replay of a history is not as the evaluator at some entry; says where. The lines' texts are kept."""
    def each():
        for entry, _ in lines:
            texts.append(json.dumps(entry))
            yield texts[-1]

    tenant = None

    def with_tenant():
        nonlocal tenant
        for pair in kept:
            tenant = pair[1]
            yield pair

    kept, lines = lines, with_tenant()
    dump = parse_dump(each())
    state, rows, closed = Replay(dump.tenant), {}, set()
    for happening in state.run(dump.entries):
        if happening.made is not None:
            rows[happening.made.number] = happening.made
        why = state_differs(state, rows, tenant, closed)
        if why:
            print(f"entry {happening.number}, {texts[-1]}: {why}")
            return True
        seen.update([happening.move.value, *(row.state.value for row in happening.ended)])
        if happening.fault:
            seen.update([f"fault {happening.fault.value}"])
    seen.update(row.kind.value for row in rows.values())
    seen.update([dump.tenant.isolation], entries=len(texts) - 1, cells=len(state.cells), epoch=state.epoch)
    return False


def drawn_histories(seed, count):
    """Compares drawn histories, and draws some of them. Returns how many entries they have."""
    draws, seen = Draws(random.Random(seed)), collections.Counter()
    differ = 0
    for number in range(count):
        machine.WARM = 0 if number % 2 else WARM  # every other history is run by compiled procedures from the start
        config, texts = draws.tenant(), []
        differ += history_differs(history_of(config, draws.steps(config["slots"])), seen, texts)
        if number % PICTURED == 0 and len(texts) > 1:
            drawn.is_well_drawn(texts)
    machine.WARM = WARM
    missing = [it for it in FINDS if not seen[it]] if count >= 500 else []
    assert not missing, f"no drawn history has {missing}"
    assert not differ, f"{differ} histories differ"
    return seen["entries"]


def wrong_dumps_are_refused():
    """What can't have happened is refused with the line of the file, and without a trace of Python."""
    first = '{"tenant":{"name":"acme","priority":"normal","reserved":1,"rows":8,"slots":2,"steps":100}}'
    made = ('{"reply":{"job":1},"request":{"job":{"args":[7,0],"fuel":10,"procs":[[["ret",0]]]},"op":"submit"},'
            '"step":"ask"}')
    bad_job = made.replace('"ret",0', '"ret",8')
    waits = made.replace('[["ret",0]]', '[["spawn",0,0,0,0],["wait",2,3,0],["ret",2]]')
    for line, lines, words in (
            (1, [], "a dump begins with"), (1, ["[]"], "a dump begins with"),
                               (1, [first.replace('"slots":2', '"slots":17')], "a dump begins"),
            (2, [first, "{}"], "no entry of a history: {}"), (2, [first, '{"moved":"ran","slot":2,"step":"advance"}'],
                                                              "no entry"),
            (2, [first, '{"moved":"idle","slot":0,"step":"advance"}'], "no entry"),
            (2, [first, '{"moved":"ran","slot":0,"step":"advance"}'], "nothing is live on slot 0"),
            (2, [first, '{"moved":"arrived","row":1,"slot":1,"step":"arrive"}'], "no row 1 waits"),
            (3, [first, made, '{"moved":"arrived","row":1,"slot":0,"step":"arrive"}'],
             "slot 0 is not free for a worker"),
            (2, [first, made.replace('"job":1}', '"job":2}')], "the next job is 1"),
                               (2, [first, bad_job], "its job is not valid, procs[0][0]: "),
            (3, [first, made, '{"reply":{"epoch":1},"request":{"op":"retire"},"step":"ask"}'], "a row is open"),
            (5, [first, waits, '{"moved":"arrived","row":1,"slot":1,"step":"arrive"}',
                 *['{"moved":"ran","slot":1,"step":"advance"}'] * 2],
             "the top row of slot 1, 1, waits")):
        try:
            for _ in replay(parse_dump(lines, "a.jsonl")):
                pass
            raise AssertionError(f"not refused: {lines}")
        except DumpFault as fault:
            assert str(fault).startswith(f"a.jsonl:{line}: ") and words in str(fault), (line, words, fault)


def page_shows_lines_that_run():
    """The python block of the page prints the text block after it."""
    with open("docs/TRACE.md") as it:
        (code, wanted), = re.findall(r"```python\n(.*?)```\n+```text\n(.*?)```", it.read(), re.S)
    printed = io.StringIO()
    with contextlib.redirect_stdout(printed):
        exec(code, {"__name__": "__main__"})
    assert printed.getvalue() == wanted, printed.getvalue()


def main(seed=1, dumps=500):
    sys.setrecursionlimit(100_000)
    if seed == "golden":
        return drawn.write_golden()
    wrong_dumps_are_refused()
    page_shows_lines_that_run()
    drawn.levels_keep_the_greatest()
    golden = drawn.golden_files_are_drawn()
    found = planted_dumps.is_found()
    entries = drawn_histories(int(seed), int(dumps))
    print(f"{dumps} drawn histories of {entries} entries are replayed as the second evaluator says; {golden} golden "
          f"files, {found} dumps of the server")


main(*sys.argv[1:])
