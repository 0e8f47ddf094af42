#!/usr/bin/env python3
"""Runs a script of examples/own, and prints each of its lines, the answer, and what the answer means.

usage: examples/show.py [NAME]     (first_job if no NAME is given)

It runs out/arena-script if `make build` has built that since the last change of a source. Otherwise it
builds the program without proving it, in a minute or two, and keeps it for the next time (checks/build/unproved.py).
"""
import json
import pathlib
import subprocess
import sys

TOP = pathlib.Path(__file__).resolve().parent.parent
sys.path.append(str(TOP / "checks" / "build"))

from unproved import built, is_newer_than_sources

PROVED = TOP / "out" / "arena-script"

MOVES = {
    "arrived": "a worker came to slot {slot} and started row {row}",
    "none": "there is nothing for a worker at slot {slot}",
    "nested": "slot {slot} started row {row} on top of its stack",
    "ran": "the top row of slot {slot} ran",
    "freed": "the top row of slot {slot} ran, and the slot is free again",
    "left": "there is nothing to do at slot {slot}, and its worker left",
    "idle": "slot {slot} has nothing that it may run now",
    "full": "the history is full; nothing changed",
    "pending": "the job has no outcome yet",
    "bad_step": "this is no step of the tenant",
}


def meaning_of_reply(reply):
    """Returns what the reply to a request means."""
    if "error" in reply:
        return f"refused: {reply['error'].replace('_', ' ')}"
    if "first" in reply:
        job = reply["job"]
        return f"job {job} is cancelled now" if reply["first"] else f"job {job} was cancelled or had ended already"
    if "status" in reply:
        outcome = {
            "running": "is running",
            "canceled": "was cancelled",
            "complete": f"is complete; its value is {reply.get('value')}",
            "fault": f"ended with fault {reply.get('fault')}",
        }
        return f"job {reply['job']} {outcome[reply['status']]}"
    if "slot" in reply:
        return f"job {reply['job']} is made, and its first row started on slot {reply['slot']}"
    if "job" in reply:
        return f"job {reply['job']} is made, and its first row waits"
    if "count" in reply:
        return f"key {reply['key']} has {reply['count']} cells; their sum is {reply['sum']}"
    if "epoch" in reply:
        return f"all jobs are retired; this is epoch {reply['epoch']}"
    return f"{reply['slots']} slots, {reply['reserved']} of them reserved; priority {reply['priority']}"


def meaning(step, answer):
    """Returns what the answer to a step means."""
    if "moved" not in answer:
        return meaning_of_reply(answer)
    return MOVES[answer["moved"]].format(slot=step.get("slot"), row=answer.get("row"))


def answers_to(script):
    """Returns the lines that the program prints for a script."""
    if is_newer_than_sources(PROVED):
        program = PROVED
        print("running out/arena-script, built by `make build`", file=sys.stderr)
    else:
        program = built("arena-script")
        print("running out/unproved/arena-script, which is not proved (`make build` proves it)", file=sys.stderr)
    with open(script) as lines:
        run = subprocess.run([program], stdin=lines, capture_output=True, text=True)
    if run.returncode != 0:
        sys.exit(f"{run.stderr}the program ended with status {run.returncode}")
    return run.stdout.splitlines()


def main():
    script = TOP / "examples" / "own" / f"{sys.argv[1] if len(sys.argv) > 1 else 'first_job'}.jsonl"
    if not script.exists():
        sys.exit(f"there is no script {script.relative_to(TOP)}")
    tenant, *steps = [line for line in script.read_text().splitlines() if line.strip()]
    limits = json.loads(tenant)["tenant"]
    answers = answers_to(script)
    print(f"> {tenant}\n{'':44}  a tenant; slots: {limits['slots']}, of them reserved: {limits['reserved']}\n")
    if len(answers) != len(steps):
        sys.exit(f"{len(steps)} steps have {len(answers)} answers")
    for step, answer in zip(steps, answers):
        print(f"> {step}\n{answer:44}  {meaning(json.loads(step), json.loads(answer))}\n")


main()
