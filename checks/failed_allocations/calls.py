"""The program of the calls that take memory: it makes each again that failed, so it prints the same whatever fails."""
import subprocess

from outcomes import Outcome
from scripts import ROOT, SECONDS

CRATE = ROOT / "crates/failed_allocations"


class Calls:
    """The program, with what it prints."""

    name, effects, stride, lanes = "failed_allocations", [], 1, 1

    def run(self, room: dict[str, str]) -> Outcome:
        """Runs it. A failed allocation may do nothing."""
        pipes = {"capture_output": True, "text": True}
        try:
            done = subprocess.run([CRATE / "out/failed_allocations"], **pipes, env=room, timeout=SECONDS)
        except subprocess.TimeoutExpired as hung:
            return Outcome(True, None, hung)
        said = done.stderr.removeprefix("failed\n")
        is_same = (done.stdout, said, done.returncode) == ((CRATE / "stdout").read_text(), "", 0)
        return Outcome(said != done.stderr, "nothing" if is_same else None, done)
