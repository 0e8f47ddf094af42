"""The commands of `arena queue`, by themselves: what they print, and their statuses."""
import json
import os
import tempfile
import unittest

from arena.queue.model import Ending, Grant, State, Wants
from arena.queue.turns import Turns
from tests.test_authoring import command

SQUARE = {"args": [3, 0], "fuel": 100, "procs": [[["mul", 2, 0, 0], ["ret", 2]]]}


class Commands(unittest.TestCase):
    """Each test has a queue and a job in a file."""

    def setUp(self) -> None:
        self.folder = self.enterContext(tempfile.TemporaryDirectory())
        self.path, self.job = (os.path.join(self.folder, name) for name in ("queue.sqlite", "square.json"))
        with open(self.job, "w") as it:
            json.dump(SQUARE, it)
        self.assertEqual(self.run_it("init")[0], 0)

    def run_it(self, *words: str, stdin: str = "") -> tuple[int, str, str]:
        """Runs a command of the queue: its status, and what it prints."""
        return command("queue", *words, "-q", self.path, "-t", "acme", stdin=stdin)

    def end(self, *endings: tuple[State, int]) -> None:
        """Ends the jobs that are ready, with a value or a fault each."""
        with Turns(self.path, "off") as queue:
            me = queue.register("me", 10)
            claims = queue.turn(me, wants=Wants({}, len(endings), 1)).claims["acme"]
            queue.turn(me, [Ending(it.job, 1, state, *((number, None) if state is State.COMPLETE else (None, number)))
                            for it, (state, number) in zip(claims, endings, strict=True)])

    def test_a_job_and_its_value(self) -> None:
        self.assertEqual(self.run_it("submit", self.job, "--key", "k")[:2], (0, "1\n"))
        self.assertEqual(self.run_it("submit", self.job, "--key", "k", "--json")[:2], (0, '{"job":1,"made":false}\n'))
        self.assertEqual(self.run_it("submit", self.job, "--key", "k", "--args", "4")[0], 12)
        self.assertEqual(self.run_it("result", "1")[:2], (4, "job 1: ready\n"))
        self.assertEqual(self.run_it("wait", "1", "--timeout", "0")[:2], (7, "job 1: ready\n"))
        self.end((State.COMPLETE, 9))
        self.assertEqual(self.run_it("wait", "1")[:2], (0, "9\n"))
        value = json.loads(self.run_it("result", "1", "--json")[1])
        self.assertEqual((value["state"], value["value"], value["key"], value["attempts"]), ("complete", 9, "k", 1))
        self.assertIn("value: 9\n", self.run_it("show", "1")[1])

    def test_programs(self) -> None:
        status, out, _ = self.run_it("program", self.job)
        with Turns(self.path, "off") as queue:
            self.assertEqual((status, queue.purge_programs()), (0, 0))
            found = queue.program_of_hash("acme", out.strip())
            assert found is not None
            self.assertEqual((found.hash, found.procs), (out.strip(), '[[["mul",2,0,0],["ret",2]]]'))

    def test_lines(self) -> None:
        status, out, _ = self.run_it("submit", self.job, "--lines", stdin="7\n8 -1\n\n9 0x10 my key\n")
        self.assertEqual((status, len(out.splitlines())), (0, 3))
        found = [json.loads(it) for it in self.run_it("list", "--json")[1].splitlines()]
        self.assertEqual([(it["args"], it.get("key")) for it in found], [([9, 16], "my key"), ([8, -1], None), ([7, 0], None)])
        for line in ("x", "1 y", str(2**64)):
            status, _, err = self.run_it("submit", self.job, "--lines", stdin=f"1\n{line}\n")
            self.assertEqual((status, "line 2" in err), (5, True))
        self.assertEqual(len(self.run_it("list")[1].splitlines()), 3, "a batch with a wrong line leaves nothing")

    def test_statuses_of_outcomes(self) -> None:
        self.run_it("submit", self.job, "--lines", stdin="1\n2\n3\n")
        self.end((State.COMPLETE, 1), (State.FAULT, 2), (State.COMPLETE, 9))
        self.assertEqual(self.run_it("result", "1", "2", "3")[:2], (1, "1\njob 2: fault 2, out of fuel\n9\n"))
        self.assertEqual(self.run_it("list", "--state", "fault")[1].split(), ["2", "acme", "fault", "2", "0", "fault", "2"])
        self.assertEqual(self.run_it("retry", "2")[:2], (0, "job 2: ready\n"))
        self.assertEqual(self.run_it("retry", "1")[0], 12)
        self.assertEqual(self.run_it("cancel", "2")[:2], (0, "job 2: canceled\n"))
        self.assertEqual(self.run_it("cancel", "2", "1")[:2], (1, "job 2: canceled\njob 1: complete\n"))
        self.assertEqual(self.run_it("result", "2")[:2], (3, "job 2: canceled\n"))

    def test_dead_letters(self) -> None:
        self.run_it("submit", self.job)
        with Turns(self.path, "off") as queue:
            me = queue.register("me", 10)
            queue.turn(me, wants=Wants({}, 1, 1))
            queue.turn(me, [Ending(1, 1, State.DEAD, error="no host takes it")])
        self.assertEqual(self.run_it("result", "1")[:2], (1, "job 1: dead; no host takes it\n"))
        self.assertEqual(self.run_it("retry", "--dead")[:2], (0, "job 1: ready\n"))
        self.assertEqual(self.run_it("retry", "--dead", "1")[0], 2)
        self.assertEqual(self.run_it("retry")[0], 2)

    def test_figures_and_what_is_removed(self) -> None:
        self.run_it("submit", self.job, "--lines", stdin="1\n2\n")
        self.end((State.COMPLETE, 1))
        found = json.loads(self.run_it("stats", "--json")[1])
        self.assertEqual(found["tenants"], {"acme": {"complete": 1, "ready": 1}})
        self.assertIn("acme: 1 complete, 1 ready\n", self.run_it("stats")[1])
        self.assertEqual(self.run_it("purge", "--before", "0", "--state", "dead")[1], "0 jobs and 0 programs removed\n")
        self.assertEqual(self.run_it("purge", "--before", "0")[1], "1 job and 0 programs removed\n")
        self.assertEqual(self.run_it("show", "1")[0], 12)

    def test_what_is_kept(self) -> None:
        out = self.run_it("init", "--keep", "0", "--keep-jobs", "5", "--reuse", "yes", "--json")[1]
        self.assertEqual(json.loads(out), {"keep_jobs": 5, "keep_seconds": None, "queue": self.path})
        self.run_it("submit", self.job)
        self.end((State.COMPLETE, 9))
        self.run_it("submit", self.job)
        self.assertEqual(self.run_it("result", "2")[:2], (0, "9\n"))

    def test_tenants_see_their_own(self) -> None:
        self.run_it("submit", self.job)
        for words in (("show", "1"), ("result", "1"), ("wait", "1"), ("cancel", "1"), ("retry", "1")):
            status, _, err = command("queue", *words, "-q", self.path, "-t", "beta")
            self.assertEqual((status, "no job has the number 1" in err), (12, True), words)
        self.assertEqual(command("queue", "list", "-q", self.path, "-t", "beta")[:2], (0, ""))

    def test_tokens(self) -> None:
        _, out, _ = self.run_it("token", "--note", "shop")
        with Turns(self.path, "off") as queue:
            self.assertEqual(queue.grant_of(out.strip()), Grant("acme"))
            self.assertIsNone(queue.grant_of("nobody's"))
            self.assertEqual(self.run_it("token", "--revoke")[:2], (0, "1 token of acme revoked\n"))
            self.assertIsNone(queue.grant_of(out.strip()))

    def test_wrong_words(self) -> None:
        self.assertEqual(command("queue", "stats")[0], 2, "no queue is named")
        self.assertEqual(command("queue", "stats", "-q", os.path.join(self.folder, "none"))[0], 12)
        self.assertEqual(command("queue", "stats", "-q", self.folder),
                         (12, "", f"arena: {self.folder}: unable to open database file\n"))
        self.assertEqual(command("queue", "stats", "-q", self.job)[0], 12, "that is no queue")
        self.assertFalse(os.path.exists(f"{self.job}-turns"))
        self.assertEqual(command("queue", "submit", self.job, "-q", self.path)[0], 2, "no tenant is named")
        with self.assertRaises(SystemExit):
            command("queue", "nothing")
        self.assertEqual(self.run_it("submit", self.job, "--priority", "5000")[0], 12)
        self.assertEqual(self.run_it("submit", "-", "--lines")[0], 2)
        self.assertEqual(self.run_it("submit", self.job, "--lines", "--key", "k")[0], 2)


if __name__ == "__main__":
    unittest.main()
