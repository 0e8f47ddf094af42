"""Requests, jobs and lines that are none, each beside its reply."""
import json
import socket

from servers import FIB, HELLO, JUMPS_AWAY, Server, tenant


def chain(count: int) -> dict:
    """A job whose tasks nest as deep as the count, and which gives 7."""
    return {"args": [count, 7], "fuel": 1000, "procs": [[
        ["jz", 0, 6], ["set", 2, 1], ["sub", 3, 0, 2], ["spawn", 0, 0, 3, 1], ["wait", 4, 5, 0], ["ret", 4], ["ret", 1]]]}


def job(*procs: list, args: tuple[int, int] = (0, 0), fuel: int = 1000) -> dict:
    """A job of these procedures."""
    return {"args": args, "fuel": fuel, "procs": procs}


# Jobs with the value that each gives, or the fault that it ends with, where one slot does all its work.
ENDS = [
    # A wait for a group that never had a member: a total of 0, and status 1.
    (job([["wait", 2, 3, 0], ["set", 4, 10], ["mul", 2, 2, 4], ["add", 2, 2, 3], ["ret", 2]]), {"value": 1}),
    # Two waits for a group that is cancelled: status 2, and then 1.
    (job([["cancel", 0], ["spawn", 0, 1, 0, 1], ["wait", 2, 3, 0], ["wait", 4, 5, 0], ["set", 6, 10], ["mul", 3, 3, 6],
          ["add", 3, 3, 5], ["add", 3, 3, 2], ["add", 3, 3, 4], ["ret", 3]], [["ret", 0]], args=(7, 0)), {"value": 21}),
    # A waiter that runs a task of another group, which overwrites its cell.
    (job([["set", 2, 5], ["store", 0, 2], ["spawn", 1, 1, 0, 1], ["spawn", 0, 2, 0, 1], ["wait", 3, 4, 1], ["load", 5, 0],
          ["wait", 3, 4, 0], ["ret", 5]], [["ret", 0]], [["set", 2, 9], ["store", 0, 2], ["ret", 2]]), {"value": 9}),
    # A waiter in a region that runs the region's own task, which overwrites its cell.
    (job([["set", 2, 5], ["store", 0, 2], ["isolate", 3, 1, 0, 1], ["load", 5, 0], ["ret", 5]],
         [["spawn", 0, 2, 0, 1], ["wait", 2, 3, 0], ["ret", 2]], [["set", 2, 9], ["store", 0, 2], ["ret", 2]]),
     {"value": 9}),
    # A return while a group is used.
    (job([["spawn", 0, 1, 0, 1], ["ret", 0]], [["ret", 0]]), {"fault": 5}),
    # 128 rows on one slot, and one more.
    (chain(127), {"value": 7}),
    (chain(128), {"fault": 3}),
    # Numbers that wrap; a division by 0, with fuel for it and without; one that rounds toward 0.
    (job([["set", 2, 2**63 - 1], ["set", 3, 1], ["add", 2, 2, 3], ["ret", 2]]), {"value": -(2**63)}),
    (job([["set", 2, -(2**63)], ["set", 3, -1], ["div", 2, 2, 3], ["ret", 2]]), {"value": -(2**63)}),
    (job([["set", 2, 1], ["div", 2, 2, 3], ["ret", 2]]), {"fault": 1}),
    (job([["set", 2, 1], ["div", 2, 2, 3], ["ret", 2]], fuel=1), {"fault": 2}),
    (job([["div", 2, 0, 1], ["ret", 2]], args=(-7, 2)), {"value": -3}),
    # 13 leaves of 4 instructions and 12 inner tasks of 10 cost 172.
    ({**FIB, "fuel": 172}, {"value": 8}),
    ({**FIB, "fuel": 171}, {"fault": 2}),
]


def each_job_has_its_end() -> None:
    server = Server([tenant("acme", 1, 1)], 1, 1)
    replies = server.ask(HELLO, *[{"op": "execute", "job": it} for it, _ in ENDS], {"op": "retire"})
    wanted = [{"job": number, "status": "complete" if "value" in end else "fault", **end}
              for number, (_, end) in enumerate(ENDS, 1)]
    assert replies == [{"tenant": "acme"}, *wanted, {"epoch": 1}], replies
    lines, err, status = server.end()
    assert lines[0].startswith("acme: closed, ") and (err, status) == ("", 0)


def replies_to(server: Server, text: bytes) -> list[dict]:
    """The replies to some lines, on a connection of their own."""
    with server.connect() as client:
        client.sendall(text)
        client.shutdown(socket.SHUT_WR)
        with client.makefile() as replies:
            return [json.loads(reply) for reply in replies]


def hostile_lines_have_their_errors() -> None:
    """Each line beside its reply. The last one has no newline."""
    hello, arena = json.dumps(HELLO).encode(), b'{"op":"arena"}'
    limits = {"priority": "normal", "reserved": 1, "slots": 1}

    def error(code: int, name: str) -> dict:
        return {"code": code, "error": name}

    table = [
        (b'{"job":1,"op":"poll"}', error(11, "no_tenant")),
        (json.dumps({"op": "submit", "job": JUMPS_AWAY}).encode(), error(11, "no_tenant")),
        (b'{"op":"hello","tenant":"zed"}', error(5, "unknown_tenant")),
        (hello, {"tenant": "acme"}),
        (hello, error(3, "bad_request")),
        (b'{"key":0,"op":"cells"}', {"count": 0, "key": 0, "sum": 0}),
        (arena.ljust(65536), limits),
        (arena.ljust(65537), error(1, "line_too_long")),
        (b'{"op":"submit"}', error(3, "bad_request")),
        (json.dumps({"op": "submit", "job": JUMPS_AWAY}).encode(), error(4, "bad_program")),
        (b'{"job":9,"op":"poll"}', error(6, "unknown_job")),
        (b'{"op":', error(2, "bad_json")),
        (b"\xff", error(2, "bad_json")),
        (b"[" * 127 + b"]" * 127, error(3, "bad_request")),
        (b"[" * 128 + b"]" * 128, error(2, "bad_json")),
        (b'{"op":"arena","x":1}', error(3, "bad_request")),
        (b'{"job":1.0,"op":"poll"}', error(3, "bad_request")),
        (arena, limits),
    ]
    server = Server([tenant("acme", 1, 1)], 1, 1)
    got = replies_to(server, b"\n".join(line for line, _ in table))
    assert got == [wanted for _, wanted in table], got
    # The cells, the arena twice, and the poll: errors of the reading are no entries.
    assert server.end() == (["acme: closed, 4 entries"], "", 0)


def lines_with_replies() -> list[tuple[str, dict]]:
    """Each line beside its reply. A request that is read is answered by the tenant, and one that is not is none."""
    limits = {"priority": "normal", "reserved": 1, "slots": 1}
    bad_json, bad_request = {"code": 2, "error": "bad_json"}, {"code": 3, "error": "bad_request"}
    bad_program, unknown_job = {"code": 4, "error": "bad_program"}, {"code": 6, "error": "unknown_job"}
    unknown_tenant, line_too_long = {"code": 5, "error": "unknown_tenant"}, {"code": 1, "error": "line_too_long"}
    return [
        ('{"op":"hello","tenant":"No Name"}', unknown_tenant),
        ('{"op":"hello","tenant":7}', bad_request),
        ('{"op":"hello"}', bad_request),
        ('{"op":"hello","tenant":"acme"}', {"tenant": "acme"}),
        ('{"job":0,"op":"poll"}', unknown_job),
        ('{"op":"poll", "job":18446744073709551615}', unknown_job),
        ('{"job":18446744073709551616,"op":"poll"}', bad_request),
        ('{"job":1e0,"op":"poll"}', bad_request),
        ('{"job":-1,"op":"poll"}', bad_request),
        ('{"job":"1","op":"poll"}', bad_request),
        ('{"job":3,"op":"collect"}', unknown_job),
        ('{"job":4,"op":"cancel"}', unknown_job),
        ('{"key":7,"op":"cells"}', {"count": 0, "key": 7, "sum": 0}),
        ('{"key":8,"op":"cells"}', bad_request),
        ('{"op":"retire","job":1}', bad_request),
        ('{"job":5,"op":"submit"}', bad_program),
        ('{"job":null,"op":"submit"}', bad_program),
        ('{"job":6,"op":"execute"}', bad_program),
        ('{"job":6,"op":"execute","slot":0}', bad_request),
        ('{"job":6,"op":"Execute"}', bad_request),
        ('{"job":1,"job":2,"op":"arena","op":"poll"}', unknown_job),
        ('{"op":7}', bad_request),
        ("{}", bad_request),
        ("[]", bad_request),
        ('"arena"', bad_request),
        ("null", bad_request),
        ('{"op":"arena"}}', bad_json),
        ('\ufeff{"op":"arena"}', bad_json),
        ("[" * 30_000 + "]" * 30_000, bad_json),
        ('{"op":"arena"}'.rjust(200_000), line_too_long),
        (' {"op":"\\u0061rena"}\r', limits),
        ('{"op":"retire"}', {"epoch": 1}),
    ]


def requests_have_exactly_their_members() -> None:
    table = lines_with_replies()
    server = Server([tenant("acme", 1, 1)], 1, 1)
    got = replies_to(server, "".join(line + "\n" for line, _ in table).encode())
    for (line, wanted), reply in zip(table, got, strict=True):
        assert reply == wanted, (line[:100], reply)
    # The unknown jobs, the cells, the arena and the retirement: errors of the reading are no entries.
    assert server.end() == (["acme: closed, 8 entries"], "", 0)


CHECKS = [each_job_has_its_end, hostile_lines_have_their_errors, requests_have_exactly_their_members]
