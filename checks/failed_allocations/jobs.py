"""Requests, and the tenants and jobs of the scripts and sessions."""
import json


def line_of(value: object) -> str:
    """A value as one line of JSON, without its newline."""
    return json.dumps(value, separators=(",", ":"), sort_keys=True)


def tenant(name: str, slots: int, reserved: int, priority: str = "normal") -> dict:
    """A tenant of a configuration, with room for 8 open rows and 200 entries."""
    return {"name": name, "priority": priority, "reserved": reserved, "rows": 8, "slots": slots, "steps": 200}


def hello(name: str) -> dict:
    return {"op": "hello", "tenant": name}


def submit(job: dict) -> dict:
    return {"job": job, "op": "submit"}


def execute(job: dict) -> dict:
    return {"job": job, "op": "execute"}


def poll(job: int) -> dict:
    return {"job": job, "op": "poll"}


def collect(job: int) -> dict:
    return {"job": job, "op": "collect"}


def cancel(job: int) -> dict:
    return {"job": job, "op": "cancel"}


def cells(key: int) -> dict:
    return {"key": key, "op": "cells"}


ARENA, RETIRE = {"op": "arena"}, {"op": "retire"}
NO_MEMORY = {"code": 9, "error": "no_memory"}

# A region that returns 7.
SEVEN = {"args": [7, 0], "fuel": 10, "procs": [[["isolate", 2, 1, 0, 1], ["ret", 2]], [["ret", 0]]]}
# It stores 5 in a cell, posts a row, and returns 15 whichever threads run its rows: a task adds the arguments, 7 and 2,
# and a region adds the 4 of its own task, which adds 2 and 2, to the 2 that is the status of a cancelled group.
MIXED = {"args": [7, 2], "fuel": 100, "procs": [
    [["set", 2, 5], ["store", 0, 2], ["spawn", 0, 1, 0, 1], ["isolate", 3, 2, 0, 1], ["post", 1, 0, 1],
     ["wait", 4, 5, 0], ["add", 4, 4, 3], ["ret", 4]],
    [["add", 2, 0, 1], ["ret", 2]],
    [["spawn", 1, 1, 1, 1], ["wait", 2, 3, 1], ["cancel", 2], ["spawn", 2, 1, 0, 1], ["wait", 4, 5, 2],
     ["add", 2, 2, 5], ["ret", 2]]]}
