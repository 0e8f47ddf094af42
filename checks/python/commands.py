#!/usr/bin/env python3
"""Gives the command each of its subcommands against the server as it was built, and compares what it prints, what it
says on standard error, and its status. The manual page and the completions must be those that the command makes.

usage: checks/python/commands.py, at the top of the repository.
"""
import json
import os
import re
import signal
import subprocess
import sys

sys.path.insert(0, os.path.abspath("python"))

from calls import Calls, by_keyboard
from packing import package_is_packed
from serving import (
    DIVIDES, FIB, INVALID, PACKAGE, PATIENCE, SCRIPT, SERVER, SEVEN, SPIN, Server, arena_command, arena_process, job, tenant)

STORES = job([["set", 2, 5], ["store", 3, 2], ["ret", 2]])
SOURCE = """fn fib(n) {
    if n < 2 { return n }
    let a = spawn fib(n - 1)
    let b = spawn fib(n - 2)
    sync
    return a + b
}
"""
PARAMETER = "param N = 3\nfn main(x) {\n    return x + N\n}\n"


class ServerCalls(Calls):
    """Calls that go to a server, and have their files in its folder."""

    def __init__(self, server):
        super().__init__(server.folder.name, ARENA_SOCKET=server.path, ARENA_TENANT="acme")
        self.server = server


def jobs_are_run(it):
    seven, fib = it.server.file("seven.json"), it.server.file("fib.json")
    it.call("run", seven, out="7\n", how=arena_process)
    it.call("run", seven, "--json", out='{"job":2,"status":"complete","value":7}\n')
    it.call("run", fib, "--args", "7", "0", "--fuel", "2000", out="13\n")
    it.call("--json", "run", fib, "--args", "7", out='{"job":4,"status":"complete","value":13}\n')
    it.call("run", "-", "--execute", stdin=json.dumps(SEVEN), out="7\n")
    it.call("run", seven, "--color", "always", out="\x1b[32m7\x1b[0m\n")
    it.call("run", it.file("divides.json", DIVIDES), status=1, out='job 7: fault 1, division by zero, in procedure 0, '
            'instruction 1: ["div",2,2,3]\n')
    it.call("run", it.file("spin.json", SPIN), "--json", status=1, out='{"fault":2,"job":8,"status":"fault"}\n')
    it.call("submit", seven, out="9\n")
    it.call("wait", "9", out="7\n")
    it.call("poll", "9", out="7\n")
    it.call("cancel", "9", status=1, out="job 9: it had ended, had a fault, or was cancelled before\n")
    it.call("run", it.file("stores.json", STORES), out="5\n")
    it.call("cells", "3", out="key 3: 1 cell, sum 5\n")
    it.call("cells", "3", "--json", out='{"count":1,"key":3,"sum":5}\n')
    it.call("info", out="acme: 2 slots, 1 reserved, priority normal\n")
    it.call("info", "--json", out='{"priority":"normal","reserved":1,"slots":2}\n')
    it.call("retire", out="epoch 1\n")
    it.call("poll", "9", status=26, err="^arena: poll 9: error 6, unknown_job: no job has that number, or it is "
            "retired or released\n$")


def waiting_jobs_are_looked_after(it):
    """The tenant `still` has reserved slots alone, so that a submitted job waits."""
    seven, still = it.server.file("seven.json"), {"ARENA_TENANT": "still"}
    it.call("submit", seven, out="1\n", **still)
    it.call("poll", "1", status=4, out="job 1: running\n", **still)
    # Within that time it also connects and is greeted.
    it.call("wait", "1", "--timeout", "2.5", status=7, err="^arena: collect 1: no reply within 2.5 s", **still)
    it.call("retire", status=32, err="error 12, busy: .*cancel", **still)
    it.call("cancel", "1", out="job 1: canceled\n", **still)
    it.call("cancel", "1", "--json", status=1, out='{"first":false,"job":1}\n', **still)
    it.call("wait", "1", status=3, out="job 1: canceled\n", **still)
    it.call("run", seven, "-s", it.server.path, "-t", "still", out="7\n", ARENA_SOCKET="/nowhere",
            ARENA_TENANT="nobody")


def faults_have_their_status(it):
    seven = it.server.file("seven.json")
    it.call("info", "--tenant", "nobody", status=25, err="error 5, unknown_tenant")
    it.call("info", status=2, err="no tenant is named; give --tenant NAME, or set ARENA_TENANT", ARENA_TENANT="")
    it.call("info", "--tenant", "No body", status=2, err="No body: a tenant's name has 1 to 32 of the characters")
    it.call("info", "--socket", "/nowhere", status=6, err="^arena: /nowhere: No such file or directory; is "
            "arena-server or arena-host running there\\? arena-server ends by itself after as many connections",
            how=arena_process)
    it.call("run", "/nowhere.json", status=8, err="^arena: /nowhere.json: No such file or directory")
    it.call("run", it.file("broken.json", '{"args":\n]'), status=5, err=r"broken.json:2:1: no JSON")
    it.call("run", it.server.file("invalid.json"), status=5, err=r"invalid.json: procs\[0\]\[0\]")
    it.call("run", seven, "--args", "1", "2", "3", status=5, err="a job has two arguments")
    wide = it.file("wide.job", "fn main(n, lo: u20, hi: u8) { return n * 1000000 + lo * 1000 + hi }\n")
    it.call("run", wide, "--args", "7", "0x10", "200", out="7016200\n")
    it.call("run", wide, "--args", "7", out="7000000\n")
    it.call("run", wide, "--args", "7", "1", "256", status=5, err="wide.job: 256 does not fit hi: u8, which is from 0 to 255")
    it.call("run", wide, "--args", "1", "2", "3", "4", status=5, err="wide.job: main has 3 parameters, and here are 4")
    it.call("run", it.server.file("fib.job"), "--args", "1", "2", "3", status=5, err="fib.job: a job has two arguments, and "
            "here are 3")
    it.call("run", seven, "-D", "N", status=2, err="write NAME=NUMBER")
    it.call(status=2, err="COMMAND")
    it.call("dance", status=2, err="invalid choice: 'dance'")
    it.call("cells", "8", status=2, err="invalid choice: 8")
    out_of_fuel = r"job \d+: fault 2, out of fuel"
    for fuel, more in (("70", r": it had 70; --fuel gives up to 1,000,000"),
                       ("1000000", ": it had 1,000,000, the most that a job can have; split the work into several jobs")):
        place = r'; in a rehearsal on one slot it is in procedure 0, instruction 0: \["jmp",0\]'
        it.call("run", it.server.file("spin.json"), "--fuel", fuel, status=1, out=re.compile(f"{out_of_fuel}{more}{place}\n"))
    it.call("submit", it.server.file("spin.json"), out="15\n")
    it.call("wait", "15", status=1, out=re.compile(f"{out_of_fuel}; a job has 1,000,000 at most\n"))


def jobs_are_built(it):
    source, parameter = it.server.file("fib.job"), it.file("parameter.job", PARAMETER)
    it.call("run", source, "--args", "10", out="55\n")
    divides = it.file("divides.job", "fn main(n) {\n    let a = n / 2 % 3\n    let b = 7 / n\n    return a %\n        (b - b)\n}\n")
    it.call("run", divides, status=1, out=re.compile(r"job \d+: fault 1, division by zero, in main, line 3\n"))
    unserial = it.file("unserial.job", "fn main(n) {\n    return n / slot() / width() % (width() - 2)\n}\n")
    it.call("run", unserial, status=1, out=re.compile(r"job \d+: fault 1, division by zero; in a rehearsal on one slot it is "
                                                      r"in main, line 2\n"))
    faulty = it.file("faulty.job", "fn main(n) {\n    let x = y\n\tlet x = z\n}\n")
    it.call("build", faulty, status=5, err="^arena: [^ ]*faulty.job:2:13: y is not known here.*\n        let x = y\n"
            "                \\^\n[^ ]*faulty.job:3:10: z is not known here.*\n    \tlet x = z\n    \t        \\^\n$")
    odd = it.file("odd.job", "fn main(n) {\n    while 1 { }\n}\n")
    it.call("build", odd, "--serial", out="serial\n", err="^[^ ]*odd.job:2:5: warning: this loop never ends: ")
    it.call("run", parameter, "--args", "4", "-D", "N=8", out="12\n")
    it.call("build", source, "-o", it.server.file("built.json"))
    it.call("run", it.server.file("built.json"), "--args", "6", out="8\n")
    it.call("build", source, "-S", out=re.compile(r".*\bspawn\b.*line 3.*", re.S))
    it.call("build", source, "--map", out=re.compile(r'\{"file":".*fib.job","procedures":\[.*\],"procs":\[.*\]\}\n'))
    it.call("build", source, "--serial", "--json", out='{"serial":true}\n')
    it.call("build", it.file("wrong.job", "fn main(x) {\n    return y\n}\n"), status=5, err=r"wrong.job:2:12: ")
    it.call("dis", it.server.file("built.json"), "-o", it.server.file("fib.jasm"))
    it.call("asm", it.server.file("fib.jasm"), "-o", it.server.file("again.json"))
    it.call("run", it.server.file("fib.jasm"), "--args", "6", out="8\n")
    it.call("asm", it.file("wrong.jasm", "proc main(x, y)\n    jump 1\n"), status=5, err="wrong.jasm:2:")
    with open(it.server.file("built.json")) as built, open(it.server.file("again.json")) as again:
        assert built.read() == again.read()


def files_are_linted(it):
    it.call("lint", it.server.file("seven.json"), out=it.server.file("seven.json") + ": valid\n")
    it.call("lint", it.server.file("fib.job"), out=it.server.file("fib.job") + ": valid\n")
    it.call("lint", it.server.file("config.json"), "--json", out=json.dumps(
        {"file": it.server.file("config.json"), "valid": True, "warnings": []}, separators=(",", ":")) + "\n")
    it.call("lint", it.server.file("invalid.json"), status=5, err=r"procs\[0\]\[0\]: .*jmp")
    it.call("lint", it.file("none.json", {"tenants": [], "workers": 1}), status=5, err="tenants")


def shell_takes_lines(it):
    lines = f"info\nrun {it.server.file('seven.json')}\n" + '{"op":"arena"}\npoll 99\nhelp\nfoo\nrun "\narena cells 0\npoll 99\n'
    done = arena_command("shell", stdin=lines, **it.known)
    wanted = ["acme: 2 slots, 1 reserved, priority normal", "7", '{"priority":"normal","reserved":1,"slots":2}']
    it.count += 1
    if done.stdout.splitlines()[:3] != wanted or "key 0: 0 cells, sum 0" not in done.stdout or done.returncode != 26:
        it.differ += 1
        print(f"arena shell: {done}")
    assert done.stderr.count("error 6, unknown_job") == 2 and "No closing quotation" in done.stderr, done.stderr
    assert "\narena: argument COMMAND: invalid choice: 'foo'" in done.stderr, done.stderr
    from arena.command.shell import Completer
    completer = Completer(["run", "retire", "poll"])
    assert list(completer.completions("r", "")) == ["run ", "retire "]
    assert f"{it.server.folder.name}/seven.json" in list(completer.completions(f"{it.server.folder.name}/se", "run "))


def is_unproved():
    """Whether the server that is tried was built without proofs, as `checks/build/unproved.py` does."""
    return "unproved" in SERVER


def servers_are_measured(it):
    rows = re.compile(r" +clients +count +a second +50 %, ms +90 %, ms +99 %, ms +slowest, ms\n"
                      r"requests +3 +30 +[\d,]+( +[\d.]+){4}\njobs +3 +20 +[\d,]+( +[\d.]+){4}\n"
                      rf"the server is {'an unproved build, a hundred .*' if is_unproved() else 'a proved build'}\n")
    it.call("retire", out=re.compile("epoch \\d+\n"))
    it.call("bench", "-c", "3", "-n", "20", "--requests", "30", out=rows)
    it.call("bench", it.server.file("seven.json"), "-c", "2", "-n", "300", "--requests", "0", "--retire", "--execute",
            "--json",
            out=re.compile(rf'\{{"build":"{"unproved" if is_unproved() else "proved"}","clients":2,'
                           r'"count":300,"milliseconds":\{"100":.*\},"per_second":[\d.]+,"refused":0,'
                           r'"what":"jobs"\}\n'))
    it.call("bench", "-c", "1", "-n", "257", "--requests", "0", status=27, out=re.compile(r"(?s).*jobs +1 +256 .*"),
            err="1 of 1 clients ended early: .*job_limit")


def dumps_are_read(it, dump):
    script = {"ARENA_SCRIPT": SCRIPT}
    it.call("check", dump, out="yes\n", **script)
    it.call("check", dump, "--script", SCRIPT, "--json", out=f'{{"file":"{dump}","verdict":"yes"}}\n')
    it.call("check", it.file("no.jsonl", wrong(dump)), status=9, out="no at step 1\n", **script)
    it.call("check", it.file("bad.jsonl", "{}\n"), status=9, out="bad line 1\n", **script)
    it.call("check", dump, "--script", "/nowhere", status=10, err="^arena: /nowhere: No such file")
    it.call("check", "/nowhere", status=8, err="^arena: /nowhere: No such file", **script)
    it.call("stat", dump, "--map", it.server.file("fib.map"), out=re.compile(r"(?s)tenant acme: [\d,]+ of 10,000 "
                                                                             r"entries .*slot +busy.*"))
    it.call("stat", dump, "--csv", out=re.compile(r"(?s)job,made_by,outcome,.*\n1,execute,7,.*"))
    it.call("stat", dump, "--json", out=re.compile(r'\{"advice":\[.*\],"asks":\{.*\}\n'))
    it.call("stat", it.server.file("bad.jsonl"), status=9, err="bad.jsonl:1: a dump begins with")
    it.call("stat", "-", stdin=dump_text(dump), out=re.compile("(?s)tenant acme: .*"), how=arena_process)
    it.call("stat", dump, "--map", it.server.file("seven.json"), status=5, err="no source map; `arena build FILE --map")
    titled = r"(?s)<svg .*<title>acme: entries {} to \d+</title>.*</svg>\n"
    it.call("timeline", dump, "--job", "3", "--axis", "clock", out=re.compile(titled.format(r"([2-9]|\d\d+)")))
    it.call("timeline", dump, "--job", "3", "--from", "1", out=re.compile(titled.format("1")))
    files = [it.server.file(name) for name in ("t.svg", "t.html", "t.json")]
    it.call("timeline", dump, "--svg", files[0], "--html", files[1], "--trace", files[2],
            out=re.compile("".join(f"{re.escape(name)}: [\\d,]+ characters\n" for name in files)))
    it.call("timeline", dump, "--from", "1000000", status=9, err="fewer entries than --from 1000000")
    it.call("timeline", dump, "--from", "7", "--to", "3", status=2, err="--to is not before --from")
    it.call("timeline", dump, "--from", "0", status=2, err="--from 0: entries are counted from 1")
    it.call("timeline", dump, "--job", "99999", status=9, err="no row of job 99999")


def dump_text(path):
    with open(path) as it:
        return it.read()


def wrong(path):
    """The dump with a first entry whose reply is another."""
    first, second, *rest = dump_text(path).splitlines()
    return "\n".join([first, json.dumps({**json.loads(second), "reply": {"job": 7}}), *rest])


def pages_are_those_that_the_command_makes(it):
    for page, path in (("man", "python/man/arena.1"), ("bash", "python/completion/arena"),
                       ("zsh", "python/completion/_arena")):
        with open(path) as made:
            text = made.read()
        it.call("pages", page, out=text)


def every_command_has_help(it):
    from arena.command import all_commands, parser
    for command in all_commands():
        assert command.example.split()[:2] == ["arena", command.name], command
        assert command.name in parser().format_help()
    it.call("--version", out=re.compile(r"arena \d+\.\d+\.\d+\n"))
    it.call("run", "--help", out=re.compile(r"(?s)usage: arena run .*example:\n  arena run .*"))
    it.call("--help", out=re.compile(r"(?s)usage: arena .*exit status:\n +0  done.*"), how=arena_process)


def interrupt_is_a_status(it):
    """A call that waits for a job is interrupted from the keyboard once the server has its request."""
    import arena
    words = [sys.executable, "-m", "arena", "-s", it.server.path, "-t", "still", "shell"]
    environment = {**os.environ, "PYTHONPATH": PACKAGE, "PYTHONUNBUFFERED": "1"}
    with arena.Client(it.server.path, "still") as client:
        number = client.submit(SEVEN)
        process = subprocess.Popen(words, stdin=subprocess.PIPE, stdout=subprocess.PIPE, stderr=subprocess.PIPE,
                                   text=True, env=environment, preexec_fn=by_keyboard)
        process.stdin.write(f"poll {number}\nwait {number}\n")
        process.stdin.flush()
        assert process.stdout.readline() == f"job {number}: running\n"
        process.send_signal(signal.SIGINT)
        try:
            _, err = process.communicate(timeout=PATIENCE)
        finally:
            process.kill()
        client.cancel(number)
    it.count += 1
    if (process.returncode, err) != (130, "interrupted\n"):
        it.differ += 1
        print(f"interrupted: status {process.returncode}, {err!r}")


def small_files(it):
    """The files that several groups take."""
    for name, content in (("seven.json", SEVEN), ("fib.json", FIB), ("invalid.json", INVALID), ("fib.job", SOURCE)):
        it.file(name, content)


def dump_of_some_jobs(it):
    """A dump of jobs that end in different ways, with the map of one of them."""
    import arena
    with arena.Client(it.server.path, "acme") as client:
        outcomes = [client.execute(one) for one in (SEVEN, DIVIDES, FIB, SPIN)]
        assert [type(outcome) for outcome in outcomes] == [arena.Complete, arena.Fault, arena.Complete, arena.Fault]
    it.call("build", it.server.file("fib.job"), "--map", "-o", it.server.file("fib.map"))
    dumps_are_read(it, it.server.dump())


# The checks that share a server, of which each call is a connection.
GROUPS = [[jobs_are_run, waiting_jobs_are_looked_after, faults_have_their_status],
          [jobs_are_built, files_are_linted, shell_takes_lines],
          [interrupt_is_a_status, pages_are_those_that_the_command_makes, package_is_packed,
           every_command_has_help],
          [servers_are_measured],
          [dump_of_some_jobs]]


def main():
    count = differ = 0
    for group in GROUPS:
        with Server(tenant(slots=2, reserved=1), tenant("still", slots=1, reserved=1)) as server:
            it = ServerCalls(server)
            small_files(it)
            for check in group:
                check(it)
        count, differ = count + it.count, differ + it.differ
    print(f"{count} calls of the command: {differ} ended otherwise than is wanted")
    return bool(differ)


sys.exit(main())
