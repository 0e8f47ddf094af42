"""A PostgreSQL server of a test's own, in a temporary folder, as a user who may do nothing else."""
import os
import pathlib
import pwd
import shutil
import signal
import subprocess
import tempfile
import time
from collections.abc import Iterator
from contextlib import contextmanager

PATIENCE = 300.0

USERS = ("postgres", "nobody")
"""Who runs the server, if the check is run by root: the server refuses to be."""

SETTINGS = {"listen_addresses": "", "max_connections": "60", "shared_buffers": "64MB", "max_wal_size": "256MB", "log_min_messages": "fatal"}


def programs() -> pathlib.Path | None:
    """The folder of the server's programs, the newest that is installed."""
    folders = [*pathlib.Path("/usr/lib/postgresql").glob("*/bin"), *(pathlib.Path(it).parent for it in [shutil.which("postgres")] if it)]
    found = [it for it in folders if (it / "initdb").exists() and (it / "postgres").exists()]
    return max(found, key=lambda it: (it.parent.name.isdigit() and int(it.parent.name), str(it)), default=None)


class Server:
    """The server of a folder, which is started, killed and started again."""

    def __init__(self, folder: pathlib.Path) -> None:
        self.folder, self._bin = folder, programs()
        self.user = None if os.getuid() else next(it for it in USERS if _is_user(it))
        self.log = folder / "postgres.log"
        self.log.touch(mode=0o666)
        if self.user is not None:
            shutil.chown(folder, self.user)
            shutil.chown(self.log, self.user)
        self._run("initdb", "-D", folder / "data", "-U", "arena", "-A", "trust", "-E", "UTF8", "--locale", "C.UTF-8", "--no-sync")
        self._running: subprocess.Popen[bytes] | None = None
        self.start()
        self._run("createdb", "-h", folder, "-U", "arena", "queue")

    @property
    def url(self) -> str:
        """Where the queue is."""
        return f"postgresql://arena@/queue?host={self.folder}"

    def _run(self, name: str, *words: object) -> None:
        done = subprocess.run([str(self._bin / name), *map(str, words)], user=self.user, capture_output=True, text=True, cwd=self.folder,
                              env={"PATH": "/usr/bin:/bin", "LC_ALL": "C.UTF-8"})
        assert done.returncode == 0, (name, done.stderr)

    def run_sql(self, sql: str) -> None:
        """Has the server carry out a statement."""
        self._run("psql", "-q", "-h", self.folder, "-U", "arena", "-d", "queue", "-c", sql)

    def start(self) -> None:
        """Starts it, and waits until it answers. One that was killed may have left processes that have not noticed it yet, while which
        it refuses to start; then it is started again."""
        ready = [str(self._bin / "pg_isready"), "-q", "-h", str(self.folder), "-d", "postgres", "-U", "arena"]
        deadline = time.monotonic() + PATIENCE
        self._running = None
        while self._running is None or subprocess.run(ready).returncode:
            assert time.monotonic() < deadline, self.log.read_text()[-2000:]
            if self._running is None or self._running.poll() is not None:
                self._running = self._begun()
            time.sleep(0.05)

    def _begun(self) -> "subprocess.Popen[bytes]":
        """Its process."""
        settings = [word for name, value in SETTINGS.items() for word in ("-c", f"{name}={value}")]
        with open(self.log, "ab") as out:
            return subprocess.Popen([str(self._bin / "postgres"), "-D", self.folder / "data", "-k", self.folder, *settings],
                                    user=self.user, stdout=out, stderr=out, cwd=self.folder, start_new_session=True,
                                    env={"PATH": "/usr/bin:/bin", "LC_ALL": "C.UTF-8"})

    def kill(self) -> None:
        """Ends it at once, with all that it has started."""
        assert self._running is not None
        os.killpg(self._running.pid, signal.SIGKILL)
        self._running.wait(PATIENCE)

    def end(self) -> None:
        """Ends it."""
        if self._running is not None and self._running.poll() is None:
            self._running.send_signal(signal.SIGINT)
            try:
                self._running.wait(10)
            except subprocess.TimeoutExpired:
                self.kill()


def _is_user(name: str) -> bool:
    try:
        return bool(pwd.getpwnam(name))
    except KeyError:
        return False


@contextmanager
def served() -> Iterator[Server]:
    """A server that goes with its folder."""
    with tempfile.TemporaryDirectory(prefix="queue-postgres-", dir="/tmp", ignore_cleanup_errors=True) as folder:
        made = Server(pathlib.Path(folder))
        try:
            yield made
        finally:
            made.end()
