"""What a host says of itself must not pass in silence, nor hold it up: its lines, its orders, and its status."""
import contextlib
import fcntl
import os
import re
import time
from collections.abc import Iterator
from concurrent.futures import ThreadPoolExecutor

from hosts import Host, ask, dumps, event_of, fib, hang_up, rotate, tenant
from servers import PATIENCE, by_deadline

# How many closed terms the status has at most, as docs/HOST.md says.
SHOWN = 64
# The least that the system lets a pipe hold, in bytes.
PIPE = 4096


@contextlib.contextmanager
def full_pipe() -> Iterator[tuple[int, int]]:
    """A pipe that has no room left, its end to read first."""
    read, write = os.pipe()
    fcntl.fcntl(write, fcntl.F_SETPIPE_SZ, PIPE)
    os.set_blocking(write, False)
    with contextlib.suppress(BlockingIOError):
        while True:
            os.write(write, b"\n" * PIPE)
    os.set_blocking(write, True)
    try:
        yield read, write
    finally:
        for end in (read, write):
            with contextlib.suppress(OSError):
                os.close(end)


def read_lines(read: int) -> list[str]:
    """The lines that come from a pipe until nobody writes to it, but for the empty ones."""
    with open(os.dup(read)) as lines:
        return [line.rstrip("\n") for line in lines if line != "\n"]


def nobody_reads_what_it_reports() -> None:
    """Standard error has no room left. The host rotates, shows its status, and ends when it is told to. Nothing that it
    could not report is torn."""
    with full_pipe() as (read, write):
        host = Host([tenant("acme")], stderr=write)
        for number in (1, 2):
            open(host.path("rotate"), "w").close()
            by_deadline(lambda: [it["term"] for it in host.status()["terms"]] == [number])
            client = host.connect()
            assert ask(client, fib(6))["value"] == 8
            hang_up(client)
        os.unlink(host.path("socket"))
        assert host.process.wait(timeout=20) == 0
        os.close(write)
        for line in read_lines(read):
            event_of(line)
    assert dumps(host, "acme") == [0, 1, 2]


def what_it_could_not_print_is_counted() -> None:
    """Standard output has no room left, and 64 tenants are closed more often than lines may wait. Whoever reads it in the
    end gets the first lines, whole, and the host reports how many others were lost."""
    names, terms = [f"t{number}" for number in range(64)], 10
    with full_pipe() as (read, write):
        host = Host([tenant(name, steps=2) for name in names], "--connections", 1, stdout=write)
        os.close(write)
        for number in range(1, terms):
            open(host.path("rotate"), "w").close()
            by_deadline(lambda: len(host.told("closed", term=number - 1)) == len(names), PATIENCE)
        with ThreadPoolExecutor(1) as pool:
            reading = pool.submit(read_lines, read)
            [unwritten] = by_deadline(lambda: host.told("unwritten"))
            assert host.stop() == 0
            first, *lines = reading.result()
    assert first == "listening" and unwritten["lines"] > 0
    assert all(re.fullmatch(r"t[0-9]+\.[0-9]{6}: closed, 0 entries", line) for line in lines), lines
    assert len(lines) + unwritten["lines"] == len(names) * terms


def rotate_that_cannot_be_removed_is_obeyed_once() -> None:
    """A folder of the order's name asks for one term more, until it is gone."""
    host = Host([tenant("acme"), tenant("beta")])
    for count, name in enumerate(("rotate.acme", "rotate"), 1):
        os.mkdir(host.path(name))
        by_deadline(lambda: len(host.told("opened", tenant="acme")) == count + 1)
        time.sleep(0.5)
        assert len(host.told("opened", tenant="acme")) == count + 1, host.events
        os.rmdir(host.path(name))
        time.sleep(0.2)
    rotate(host, 3)
    assert host.stop() == 0
    assert (len(host.told("opened", tenant="acme")), len(host.told("opened", tenant="beta"))) == (4, 2)


def status_under_a_mask() -> None:
    """The status has its mode whatever the mask of the process is."""
    mask = os.umask(0o077)
    try:
        host = Host([tenant("acme")], "--mode", "666")
    finally:
        os.umask(mask)
    assert os.stat(host.path("status.json")).st_mode & 0o777 == 0o644
    assert os.stat(host.path("socket")).st_mode & 0o777 == 0o666
    assert host.stop() == 0


def the_newest_closed_terms_are_shown() -> None:
    """Of more than 64 that were closed, the status keeps the newest 64."""
    host = Host([tenant("acme", steps=100)], "--connections", 1)
    for number in range(1, SHOWN + 2):
        rotate(host, number)
        by_deadline(lambda: host.told("closed", term=number - 1))
    assert host.stop() == 0
    assert [it["term"] for it in host.status()["closed"]] == list(range(2, SHOWN + 2))


CHECKS = [nobody_reads_what_it_reports, what_it_could_not_print_is_counted, rotate_that_cannot_be_removed_is_obeyed_once,
          status_under_a_mask, the_newest_closed_terms_are_shown]
