"""What a user does: submits, kills everything, starts it again; a full disk; one job that is run durably."""
import json
import pathlib
import signal
import subprocess
import sys
from collections.abc import Iterator
from contextlib import contextmanager

import places
from chaos import watch
from processes import HERE, PATIENCE, place, until

SQUARE = {"args": [0, 0], "fuel": 100, "procs": [[["mul", 2, 0, 0], ["ret", 2]]]}
LIMIT = 400_000
"""How many bytes a file may have, if no disk can be made that is full."""

DISK, BALLAST = 2 << 20, 1_200_000
"""How many bytes the disk has that gets full, and how many of them are in use from the beginning."""

REFUSED = ("database or disk is full", "disk I/O error")


def ten_jobs_outlive_everything() -> None:
    """Ten jobs are submitted, everything is killed, and after a new start there are ten results."""
    with place() as at:
        job = at.folder / "square.json"
        job.write_text(json.dumps(SQUARE))
        at.arena("queue", "init")
        host, dispatcher = at.host(0), at.dispatcher(0, 0)
        for it in (host, dispatcher):
            it.start()
        lines = at.arena("queue", "submit", job, "--lines", text="".join(f"{n}\n" for n in range(10)))
        for it in (dispatcher, host):
            it.kill()
        for it in (host, dispatcher):
            it.start()
        values = at.arena("queue", "wait", *lines.split(), "--timeout", PATIENCE / 2).split()
        assert values == [str(n * n) for n in range(10)], values
        assert json.loads(at.arena("queue", "stats", "--json"))["tenants"] == {"acme": {"complete": 10}}


@contextmanager
def small_disk(folder: pathlib.Path) -> Iterator[bool]:
    """A folder on a disk of its own on which there is little room, if that may be made; whether it was."""
    folder.mkdir()
    if subprocess.run(["mount", "-t", "tmpfs", "-o", f"size={DISK}", "tmpfs", folder], capture_output=True).returncode:
        print("no disk could be mounted (only root may): that one is full is tried by a limit for the submitter's files")
        yield False
        return
    try:
        (folder / "ballast").write_bytes(bytes(BALLAST))
        yield True
    finally:
        subprocess.run(["umount", "-l", folder], check=True)


def a_full_disk_loses_nothing() -> None:
    """While nothing more can be written, submissions are refused, and a dispatcher tries again, also one that is started anew; once
    there is room, each job that was acknowledged gets its outcome, once."""
    with place() as at, small_disk(at.folder / "disk") as is_full:
        at.queue = str(at.folder / "disk" / "queue.sqlite")
        at.arena("queue", "init")
        watch(at.queue)
        host, dispatcher = at.host(0), at.dispatcher(0, 0)
        if is_full:
            host.start(), dispatcher.start()
            until(lambda: "is taken" in dispatcher.printed(), "a dispatcher")
        words = [sys.executable, HERE / "filler.py", at.queue, *([] if is_full else [LIMIT])]
        done = subprocess.run([str(it) for it in words], capture_output=True, text=True, timeout=PATIENCE)
        assert done.returncode == 0 and done.stderr.strip() in REFUSED, done
        acknowledged = [int(it) for it in done.stdout.split()]
        if is_full:
            until(lambda: "it is tried again" in dispatcher.printed(), "a dispatcher that meets the full disk", why=dispatcher.printed)
            dispatcher.kill()
            dispatcher.start()
            (at.folder / "disk" / "ballast").unlink()
            subprocess.run(["mount", "-o", "remount,size=64m", at.folder / "disk"], check=True)
        else:
            host.start(), dispatcher.start()
        until(lambda: not at.rows("SELECT 1 FROM job WHERE ended_at IS NULL LIMIT 1"), "the last outcome", why=dispatcher.printed)
        assert acknowledged, done
        right = at.rows("SELECT id FROM job WHERE state = 'complete' AND value = x * x ORDER BY id")
        assert {it for it, in right} >= {*acknowledged}, "acknowledged, and without its value"
        assert at.rows("SELECT job FROM outcome GROUP BY job HAVING count(*) > 1") == [], "two outcomes"


def a_job_is_run_durably() -> None:
    """`arena run --durably` waits for a host, and goes on when that dies and comes back."""
    with place() as at:
        job = at.folder / "square.json"
        job.write_text(json.dumps({**SQUARE, "args": [12, 0]}))
        host = at.host(0)
        words = [sys.executable, "-m", "arena", "-s", at.folder / "host0" / "socket", "-t", "acme", "run", job, "--durably"]
        early = subprocess.Popen([str(it) for it in words], stdout=subprocess.PIPE, stderr=subprocess.PIPE, text=True,
                                 env={"PYTHONPATH": places.PACKAGE, "PATH": "/usr/bin:/bin"})
        assert early.stderr is not None and "No such file" in early.stderr.readline()
        for _ in range(2):
            host.start()
            assert early.communicate(timeout=PATIENCE)[0] == "144\n"
            host.signal(signal.SIGKILL)
            host.wait()
            early = subprocess.Popen([str(it) for it in words], stdout=subprocess.PIPE, text=True, stderr=subprocess.DEVNULL,
                                     env={"PYTHONPATH": places.PACKAGE, "PATH": "/usr/bin:/bin"})
        early.kill()
        early.communicate()


CHECKS = (ten_jobs_outlive_everything, a_full_disk_loses_nothing, a_job_is_run_durably)
