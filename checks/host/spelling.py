"""The lines of requests in a journal, byte by byte: each is the one spelling of what was asked and replied."""
import glob
import itertools
import json
import random

from hosts import Host, ask, hang_up, tenant

SEED = 20_261_130
REQUESTS = 300
# The shapes of instructions, as docs/PROTOCOL.md has them: a register, a number, a target, a group, a procedure, a key.
SHAPES = {
    "set": "rn", "jz": "rt", "jmp": "t", "slot": "r", "width": "r", "spawn": "gprr", "post": "prr", "wait": "rrg", "cancel": "g",
    "ask": "r", "isolate": "rprr", "load": "rk", "store": "kr", "sum": "rk", "count": "rk", "ret": "r",
    **dict.fromkeys(("add", "sub", "mul", "div", "rem", "and", "or", "xor", "shl", "shr", "lt", "le", "eq"), "rrr"),
}
EDGES = [0, 1, -1, 9, 10, -10, 2**63 - 1, -2**63]
# What is replied to a request that is not recorded: errors 1 to 5, 8, 9, 11 and 13.
NOT_RECORDED = {1, 2, 3, 4, 5, 8, 9, 11, 13}


def number(draw: random.Random) -> int:
    """A number of 64 bits, often at an edge."""
    return draw.choice(EDGES) if draw.random() < 0.5 else draw.randint(-2**63, 2**63 - 1)


def proc(draw: random.Random, procs: int) -> list[list]:
    """A procedure that returns at once, before instructions of any shape."""
    length = draw.randint(0, 40)
    ranges = {"r": 8, "t": length + 2, "g": 4, "p": procs, "k": 8}
    names = [draw.choice(list(SHAPES)) for _ in range(length)]
    drawn = [[name, *(number(draw) if kind == "n" else draw.randrange(ranges[kind]) for kind in SHAPES[name])] for name in names]
    return [["ret", draw.randrange(8)], *drawn, ["ret", draw.randrange(8)]]


def job(draw: random.Random) -> dict:
    """A job of some procedures."""
    procs = draw.randint(1, 4)
    return {"args": [number(draw), number(draw)], "fuel": draw.randint(1, 1_000_000), "procs": [proc(draw, procs) for _ in range(procs)]}


def request(draw: random.Random) -> dict:
    """A request of any kind but a hello; one of three is about a job that may be there."""
    named = draw.choice([1, 2, 3, 9, 10, 11, 9_999, draw.randrange(1, 300)])
    return draw.choice([
        {"job": job(draw), "op": "submit"}, {"job": job(draw), "op": "execute"}, {"job": named, "op": "poll"}, {"job": named, "op": "cancel"},
        {"job": named, "op": "collect"}, {"job": named, "op": "collect", "release": True}, {"job": named, "op": "release"},
        {"key": draw.randrange(8), "op": "cells"}, {"op": "arena"}, {"op": "retire"},
    ])


def spelled(value: object) -> str:
    """The one spelling of a value: members by name, and no space."""
    return json.dumps(value, sort_keys=True, separators=(",", ":"))


def lines_of_asks(host: Host) -> list[str]:
    """The lines of requests in a host's only journal."""
    [path] = glob.glob(host.path("journals", "*"))
    with open(path, newline="\n") as journal:
        lines = [line.removesuffix("\n") for line in journal]
    return [line for line in lines if json.loads(line).get("step") == "ask"]


def entries(it: dict, reply: dict) -> list[dict]:
    """The entries of a request that was recorded and of its reply. An execute is two: where its job is placed, on the only
    reserved slot, and the collect of its outcome."""
    if it["op"] != "execute" or "error" in reply:
        return [{"reply": reply, "request": it, "step": "ask"}]
    placed = {"reply": {"job": reply["job"], "slot": 0}, "request": it, "step": "ask"}
    return [placed, {"reply": reply, "request": {"job": reply["job"], "op": "collect"}, "step": "ask"}]


def requests_are_spelled_in_one_way() -> None:
    """Requests of all kinds, with jobs of all instructions, are asked one after another; the lines of requests in the journal
    are the spellings of those that were to be recorded, as they were sent and replied to, in their order."""
    draw = random.Random(SEED)
    host = Host([tenant("acme", steps=100_000)], "--durable", "write")
    client = host.connect()
    asked = [request(draw) for _ in range(REQUESTS)]
    replies = [ask(client, it) for it in asked]
    lines = lines_of_asks(host)
    hang_up(client)
    assert host.stop() == 0
    recorded = [(it, reply) for it, reply in zip(asked, replies, strict=True) if reply and reply.get("code") not in NOT_RECORDED]
    assert len(recorded) > REQUESTS * 0.9, len(recorded)
    expected = [spelled(entry) for it, reply in recorded for entry in entries(it, reply)]
    for line, entry in itertools.zip_longest(lines, expected):
        assert line == entry, (line, entry)


CHECKS = [requests_are_spelled_in_one_way]
