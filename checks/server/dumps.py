"""The files of histories that a server writes when it ends."""
import json
import os
import pathlib
import tempfile

from requests import job
from servers import FIB, HELLO, PATIENCE, SEVEN, Server, dump_lines, library, tenant

# A library by which no file is brought to the disk, and one that tells how much of a file has been when it is renamed.
UNFLUSHED = pathlib.Path(__file__).with_name("unflushed.c")
SYNCED = pathlib.Path(__file__).with_name("synced.c")


def dump_is_the_history() -> None:
    """The lines of the dump are those that the formats give for this history, to the byte."""
    server = Server([{**tenant("acme", 1, 1), "rows": 8, "steps": 100}], 1, 1)
    server.ask(HELLO, {"op": "execute", "job": SEVEN}, {"op": "poll", "job": 1})
    assert server.process.wait(PATIENCE) == 0
    with open(os.path.join(server.dumps, "acme.jsonl")) as dump:
        assert dump.read().splitlines() == [
            '{"tenant":{"name":"acme","priority":"normal","reserved":1,"rows":8,"slots":1,"steps":100}}',
            '{"reply":{"job":1,"slot":0},"request":{"job":{"args":[7,0],"fuel":10,"procs":[[["ret",0]]]},"op":"execute"},"step":"ask"}',
            '{"moved":"freed","slot":0,"step":"advance"}',
            '{"reply":{"job":1,"status":"complete","value":7},"request":{"job":1,"op":"collect"},"step":"ask"}',
            '{"reply":{"job":1,"status":"complete","value":7},"request":{"job":1,"op":"poll"},"step":"ask"}']
    assert server.end() == (["acme: closed, 4 entries"], "", 0)


def dump_has_the_job_that_was_sent() -> None:
    """A job of all instructions and the tenant's own settings, each at an end of its range, are dumped as they were given."""
    sent = job([["set", 1, -(2**63)], ["add", 2, 0, 1], ["sub", 3, 0, 1], ["mul", 4, 0, 1], ["div", 5, 0, 1], ["lt", 6, 0, 1],
                ["rem", 7, 0, 1], ["and", 0, 7, 6], ["or", 1, 6, 5], ["xor", 2, 5, 4], ["shl", 3, 4, 3], ["shr", 4, 3, 2],
                ["eq", 5, 2, 1], ["le", 6, 1, 0], ["jz", 6, 15], ["jmp", 16], ["slot", 7], ["width", 0], ["spawn", 3, 1, 0, 1], ["post", 1, 0, 1],
                ["wait", 2, 3, 3], ["cancel", 0], ["ask", 1], ["isolate", 2, 1, 0, 1], ["load", 3, 7], ["store", 0, 4],
                ["sum", 5, 1], ["count", 6, 2], ["ret", 7]], [["ret", 0]], args=(2**63 - 1, -(2**63)), fuel=1000000)
    config = {"isolation": "within", "name": "a-9", "priority": "high", "reserved": 0, "rows": 4096, "slots": 16, "steps": 1}
    server = Server([config], 1, 1)
    request = {"op": "submit", "job": sent}
    assert server.ask({"op": "hello", "tenant": "a-9"}, request) == [{"tenant": "a-9"}, {"job": 1}]
    assert server.process.wait(PATIENCE) == 0
    with open(os.path.join(server.dumps, "a-9.jsonl")) as dump:
        lines = [{"tenant": config}, {"reply": {"job": 1}, "request": request, "step": "ask"}]
        assert dump.read().splitlines() == [json.dumps(line, separators=(",", ":"), sort_keys=True) for line in lines]
    assert server.end() == (["a-9: closed, 1 entries"], "", 0)


def folder_of_dumps_is_missing() -> None:
    server = Server([tenant("acme", 1, 1)], 1, 1)
    os.rmdir(server.dumps)
    server.ask(HELLO)
    out, err = server.process.communicate(timeout=PATIENCE)
    assert (out, err, server.process.returncode) == ("acme: closed, 0 entries\n", "arena-server: device\n", 3)


def dump_that_fails_is_left_out() -> None:
    """A folder stands where acme's dump would be. beta has its dump all the same."""
    server = Server([tenant("acme", 1, 1), tenant("beta", 1, 1)], 1, 1)
    os.mkdir(os.path.join(server.dumps, "acme.jsonl"))
    server.ask(HELLO)
    out, err = server.process.communicate(timeout=PATIENCE)
    assert out == "acme: closed, 0 entries\nbeta: closed, 0 entries\n"
    assert (err, server.process.returncode) == ("arena-server: device\n", 3)
    assert sorted(os.listdir(server.dumps)) == ["acme.jsonl", "beta.jsonl"] and dump_lines(server.dumps, "beta") == 1


def dump_that_is_not_flushed_is_left_out() -> None:
    """A dump takes its name only once the system has said that it is on the disk, which here it never says."""
    with library(UNFLUSHED) as unflushed:
        server = Server([tenant("acme", 1, 1)], 1, 1, LD_PRELOAD=unflushed)
        server.ask(HELLO)
        out, err = server.process.communicate(timeout=PATIENCE)
    assert (out, err, server.process.returncode) == ("acme: closed, 0 entries\n", "arena-server: device\n", 3)
    assert os.listdir(server.dumps) == []


def all_of_a_dump_is_flushed_first() -> None:
    """When a dump takes its name, each of its bytes was written before it was flushed, and none after."""
    with library(SYNCED) as synced, tempfile.TemporaryDirectory() as folder:
        renames = os.path.join(folder, "renames")
        server = Server([tenant("acme", 1, 1)], 1, 1, LD_PRELOAD=synced, RENAMES=renames)
        server.ask(HELLO, {"op": "execute", "job": FIB})
        assert server.end() == (["acme: closed, 87 entries"], "", 0)
        size = os.path.getsize(os.path.join(server.dumps, "acme.jsonl"))
        with open(renames) as it:
            assert it.read() == f"{size} 0\n"


CHECKS = [dump_is_the_history, dump_has_the_job_that_was_sent, folder_of_dumps_is_missing, dump_that_fails_is_left_out,
          dump_that_is_not_flushed_is_left_out, all_of_a_dump_is_flushed_first]
