"""A queue of its own for each test, and the programs of its jobs."""
import os
import tempfile
import unittest

from arena.queue import NewJob, Program, State
from arena.queue.model import Claim, Ending, Turn, Wants
from arena.queue.turns import Turns

ONE, TWO = Program.of([[["ret", 0]]]), Program.of([[["add", 2, 0, 1], ["ret", 2]]])
CELL = Program.of([[["store", 0, 0], ["ret", 0]]])
ANY = Wants({}, 10, 10)
SOON = 10.0


class WithQueue(unittest.TestCase):
    """Each test has a queue of its own."""

    def where(self) -> str:
        """Where the queue is to be."""
        return os.path.join(self.folder, "queue.sqlite")

    def setUp(self) -> None:
        self.folder = self.enterContext(tempfile.TemporaryDirectory())
        self.path = self.where()
        self.queue = self.enterContext(Turns(self.path, "off", make=True))

    def submit(self, *jobs: NewJob) -> list[int]:
        """The numbers of submitted jobs."""
        return [it.job for it in self.queue.submit(jobs)]

    def claim(self, dispatcher: int, wants: Wants = ANY) -> list[Claim]:
        """The jobs that a dispatcher claims."""
        return [it for claims in self.queue.turn(dispatcher, wants=wants).claims.values() for it in claims]

    def end(self, dispatcher: int, *endings: Ending) -> Turn:
        """Records outcomes."""
        return self.queue.turn(dispatcher, endings)

    def state(self, job: int) -> State:
        """How far a job is."""
        return self.queue.job(job).state
