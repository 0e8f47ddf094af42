"""What a newcomer does: `make queue`, ten jobs by the command and over HTTP; all of it is killed and started again, and ten results are
read; Ctrl-C ends it in order."""
import http.client
import json
import os
import pathlib
import re
import signal
import subprocess
import sys
import tempfile
from contextlib import suppress

import places
from processes import PATIENCE, until

SQUARE = "fn main(a, b) { return a * a }"


class Made:
    """`make queue` in a folder, and what it has printed."""

    def __init__(self, folder: pathlib.Path) -> None:
        self.folder, self._printed = folder, folder / "make.out"
        self.queue = folder / "it" / "queue.sqlite"
        with open(self._printed, "wb") as out:
            self._make = subprocess.Popen(
                ["make", "queue", f"QUEUE={folder / 'it'}", f"HOST={places.TOP / places.host_program()}", "LISTEN=127.0.0.1:0"],
                cwd=places.TOP, stdout=out, stderr=out, start_new_session=True)
        until(lambda: "Ctrl-C ends everything" in self.printed() or self._make.poll() is not None, "make queue", why=self.printed)
        assert self._make.poll() is None, self.printed()

    def printed(self) -> str:
        """What it has printed."""
        return self._printed.read_text()

    def processes(self) -> set[int]:
        """All processes that it consists of."""
        found, new = set(), {self._make.pid}
        while new:
            found |= new
            new = {child for pid in new for child in children_of(pid)} - found
        return found

    def kill(self) -> None:
        """Ends all of them at once."""
        its = self.processes()
        for pid in its:
            with suppress(ProcessLookupError):
                os.kill(pid, signal.SIGKILL)
        self._gone(its)

    def interrupt(self) -> None:
        """Presses Ctrl-C, and waits until nothing is left of it."""
        its = self.processes()
        os.killpg(self._make.pid, signal.SIGINT)
        self._gone(its)

    def _gone(self, its: set[int]) -> None:
        """Waits for the end of processes."""
        self._make.wait(PATIENCE)
        until(lambda: not any(map(is_running, its)), "the end of all that was started", why=self.printed)

    def arena(self, *words: object, text: str = "") -> str:
        """What the command prints."""
        done = subprocess.run([sys.executable, "-m", "arena", *map(str, words)], input=text, capture_output=True, text=True, cwd=places.TOP,
                              timeout=PATIENCE, env={**os.environ, "PYTHONPATH": places.PACKAGE, "ARENA_QUEUE": str(self.queue),
                                                     "ARENA_TENANT": "acme"})
        assert done.returncode == 0, done
        return done.stdout

    def ask(self, method: str, path: str, token: str, body: object = None) -> dict[str, object]:
        """What the service answers at the place that was printed."""
        found = re.search(r"http://127\.0\.0\.1:(\d+)", self.printed())
        assert found is not None, self.printed()
        link = http.client.HTTPConnection("127.0.0.1", int(found[1]), timeout=PATIENCE)
        link.request(method, path, None if body is None else json.dumps(body), {"Authorization": f"Bearer {token}"})
        said = link.getresponse()
        value = json.loads(said.read())
        link.close()
        assert said.status in (200, 201), value
        return value


def children_of(pid: int) -> list[int]:
    """The processes that a process has started."""
    with suppress(FileNotFoundError, ProcessLookupError):
        return [int(it) for task in pathlib.Path(f"/proc/{pid}/task").iterdir() for it in (task / "children").read_text().split()]
    return []


def is_running(pid: int) -> bool:
    """Whether there is such a process that has not ended."""
    with suppress(FileNotFoundError, ProcessLookupError):
        return pathlib.Path(f"/proc/{pid}/stat").read_text().rpartition(")")[2].split()[0] not in "ZX"
    return False


def ten_jobs_in_the_first_minutes() -> None:
    """Ten jobs, half of them over HTTP where that is served, are kept; everything is killed; there are ten results afterwards."""
    has_http = places.python_with("aiohttp") is not None
    with tempfile.TemporaryDirectory(prefix="first-") as folder:
        (at := pathlib.Path(folder) / "square.job").write_text(SQUARE)
        made = Made(pathlib.Path(folder))
        try:
            assert ("aiohttp is missing" in made.printed()) != has_http, made.printed()
            token = made.arena("queue", "token").strip()
            jobs = made.arena("queue", "submit", at, "--lines", text="".join(f"{n}\n" for n in range(5 if has_http else 10))).split()
            jobs += [str(made.ask("POST", "/v1/jobs", token, {"source": SQUARE, "args": [n, 0]})["job"]) for n in range(len(jobs), 10)]
            made.kill()
            made = Made(pathlib.Path(folder))
            assert "10 jobs from before" in made.printed(), made.printed()
            values = made.arena("queue", "wait", *jobs, "--timeout", PATIENCE / 2).split()
            assert values == [str(n * n) for n in range(10)], values
            if has_http:
                assert [made.ask("GET", f"/v1/jobs/{it}?wait=60", token)["value"] for it in jobs] == [n * n for n in range(10)]
            made.interrupt()
        finally:
            made.kill()


CHECKS = (ten_jobs_in_the_first_minutes,)
