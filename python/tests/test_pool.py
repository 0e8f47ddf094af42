"""The pool: jobs have their outcomes whatever becomes of hosts and connections, or it is said what to do."""
import asyncio
import concurrent.futures
import json
import logging
import selectors
import socket
import time
import unittest

from arena.places import MadeSocket, UnixPlace
from arena.pool import AsyncPool, Final, Pool, Settings, TryAgain
from arena.pool.desk import Desk
from arena.pool.host import Host as PlaceOfHost
from arena.pool.lane import Lane, Op
from arena.pool.task import Ended, NotRun, Task
from arena.prepared import Prepared
from arena.replies import (BadProgram, Canceled, Complete, ConnectionLost, Fault, FaultCode, StrangeReply, TimedOut,
                           UnknownTenant)
from tests.standin import StandIn

SQUARE = [[["mul", 2, 0, 0], ["ret", 2]]]
CELL = [[["store", 0, 0], ["load", 2, 0], ["ret", 2]]]
SOON = 60.0


def job(n: int, procs: list[list[list[object]]] = SQUARE) -> dict[str, object]:
    """A job that squares its first argument, or another one."""
    return {"args": [n, 0], "fuel": 100, "procs": procs}


class WithHost(unittest.TestCase):
    """Each test has a host."""

    def setUp(self) -> None:
        logging.disable()
        self.addCleanup(logging.disable, logging.NOTSET)
        self.host = self.enterContext(StandIn())

    def pool(self, patience: float | None = SOON, tenant: str = "acme", **more: object) -> Pool:
        """A pool at the host."""
        made = Pool(self.host.path, tenant, patience=patience, settings=Settings(**more))  # type: ignore[arg-type]
        self.addCleanup(made.close)
        return made

    def values(self, pool: Pool, numbers: range) -> list[int]:
        """The squares of numbers, all under way at once: none is collected before the last one is begun."""
        self.host.go.clear()
        futures = [pool.start(job(it)) for it in numbers]
        self.host.go.set()
        outcomes = [it.result(SOON) for it in futures]
        return [it.value for it in outcomes if isinstance(it, Complete)]


class Outcomes(WithHost):
    """Jobs that end."""

    def test_many_jobs_over_one_connection(self) -> None:
        self.assertEqual(self.values(self.pool(renew=60.0), range(600)), [n * n for n in range(600)])
        self.assertEqual(self.host.met["submit"], 600)
        self.assertLessEqual(self.host.met["connections"], 2)  # the first one is to see whether the host is there
        self.assertEqual(self.host.tenants["acme"].jobs, {}, "all are released")

    def test_threads_share_it(self) -> None:
        pool = self.pool()
        with concurrent.futures.ThreadPoolExecutor(8) as threads:
            found = list(threads.map(lambda n: pool.run(job(n), timeout=SOON), range(100)))
        self.assertEqual([it.value for it in found if isinstance(it, Complete)], [n * n for n in range(100)])

    def test_connections_are_renewed(self) -> None:
        self.assertEqual(len(self.values(self.pool(renew_jobs=20), range(200))), 200)
        self.assertGreater(self.host.met["connections"], 4)  # a look, and no connection takes more than a window of 64

    def test_a_fault_of_the_job_is_its_outcome(self) -> None:
        divides: list[list[list[object]]] = [[["div", 2, 0, 1], ["ret", 2]]]
        self.assertEqual(self.pool().run(job(1, divides), timeout=SOON), Fault(FaultCode.DIVISION, 1))
        self.assertEqual(self.host.met["submit"], 1)

    def test_asyncio(self) -> None:
        async def squares() -> list[object]:
            """Runs ten jobs at once."""
            async with AsyncPool(self.host.path, "acme") as pool:
                return [it.value for it in await asyncio.gather(*(pool.run(job(n)) for n in range(10)))
                        if isinstance(it, Complete)]
        self.assertEqual(asyncio.run(squares()), [n * n for n in range(10)])


class Again(WithHost):
    """Jobs that are tried again."""

    def test_what_had_no_room_is_asked_again(self) -> None:
        self.host.refusals = [7, 8, 9, 10, 8, 7]
        self.assertEqual(self.values(self.pool(), range(10)), [n * n for n in range(10)])
        self.assertEqual(self.host.met["submit"], 16)

    def test_serial_jobs_are_run_again(self) -> None:
        self.host.cuts = 2
        self.assertEqual(self.values(self.pool(), range(50)), [n * n for n in range(50)])
        self.assertGreater(self.host.met["submit"], 50)

    def test_a_host_that_dies_and_comes_back(self) -> None:
        pool = self.pool()
        self.host.go.clear()
        futures = [pool.start(job(it)) for it in range(20)]
        while self.host.met["collect"] < 1:
            time.sleep(0.001)
        self.host.kill()
        self.host.go.set()
        self.host.start()
        self.assertEqual([it.result(SOON) for it in futures], [Complete(n * n, it.result().job)
                                                               for n, it in enumerate(futures)])

    def test_other_jobs_are_not_run_again_unasked(self) -> None:
        self.host.cuts = 1
        with self.assertRaises(TryAgain) as fault:
            self.pool().run(job(5, CELL), timeout=SOON)
        self.assertIsNone(fault.exception.done)
        self.host.cuts = 1
        self.assertEqual(self.pool().run(job(5, CELL), again=True, timeout=SOON), Complete(5, 3))

    def test_faults_by_load_are_tried_alone(self) -> None:
        self.host.is_crowded = True
        self.assertEqual(self.values(self.pool(), range(12)), [n * n for n in range(12)])
        self.assertGreater(self.host.met["submit"], 12)

    def test_faults_that_stay_are_final(self) -> None:
        self.host.leave("acme", 1)
        self.host.is_crowded = True
        self.assertEqual(self.pool().run(job(5), timeout=SOON), Fault(FaultCode.TASK_LIMIT, 4))
        self.assertEqual(self.host.met["submit"], 3)
        self.assertEqual(self.pool().run(job(5, CELL), timeout=SOON), Fault(FaultCode.TASK_LIMIT, 5), "not serial: at once")

    def test_a_job_that_kills_its_host_runs_alone(self) -> None:
        self.host.poison, self.host.cuts = 9, 4
        self.assertEqual(self.values(self.pool(), range(40)), [n * n for n in range(40)])
        self.assertEqual(len(self.host.beside), 5)
        self.assertGreater(self.host.beside[0], 0)
        self.assertEqual(self.host.beside[3:], [0, 0])

    def test_what_lost_connections_left_is_retired(self) -> None:
        self.host.leave("acme", 256)
        self.assertEqual(self.pool(retire=True).run(job(3), timeout=SOON), Complete(9, 257))
        self.assertEqual(self.host.met["retire"], 1)

    def test_nothing_is_retired_unasked(self) -> None:
        self.host.leave("acme", 256)
        with self.assertRaises(TryAgain) as fault:
            self.pool(patience=0.3).run(job(3), timeout=SOON)
        self.assertIs(fault.exception.done, False)
        self.assertEqual(self.host.met["retire"], 0)


class Lanes(unittest.TestCase):
    """A connection, whose other end the test has."""

    def setUp(self) -> None:
        mine, self.other = socket.socketpair()
        self.lane: Lane[int] = Lane(MadeSocket(mine), "acme", SOON)
        self.addCleanup(self.lane.close)
        self.tasks = [Task(n, Prepared(SQUARE).line("submit", (n, 0), 100)) for n in range(3)]
        for it in self.tasks:
            self.lane.feed([it])
        self.lane.flush()

    def test_what_came_before_the_end_is_taken(self) -> None:
        self.other.sendall(b'{"tenant":"acme"}\n{"job":1}\n')
        self.assertEqual([it.op for it in self.lane.read()], [Op.HELLO])
        self.lane.flush()
        self.other.sendall(b'{"job":2}\n{"code":7,"error":"job_limit"}\n{"job":1,"status":"complete","value":0}\n')
        self.other.close()
        answers = self.lane.read()
        self.assertEqual([it.task for it in answers], [self.tasks[2], self.tasks[0]])
        self.assertEqual(answers[1].said, Complete(0, 1))
        self.assertEqual(self.lane.under_way, [self.tasks[1]])
        with self.assertRaises(ConnectionLost):
            self.lane.flush()

    def test_a_cancel_overtakes_a_collect_that_is_not_sent(self) -> None:
        self.lane.cancel(self.tasks[1])
        self.other.sendall(b'{"tenant":"acme"}\n{"job":1}\n{"job":2}\n{"job":3}\n')
        self.lane.read()
        self.lane.flush()
        asked = [json.loads(it) for it in self.other.recv(9999).splitlines()]
        self.assertEqual([(it["op"], it.get("job")) for it in asked[-4:]],
                         [("collect", 1), ("cancel", 2), ("collect", 2), ("collect", 3)])
        self.other.sendall(b'{"job":1,"status":"complete","value":0}\n{"first":true,"job":2}\n{"job":2,"status":"canceled"}\n')
        self.assertEqual([it.said for it in self.lane.read()], [Complete(0, 1), Canceled(2)])
        self.other.close()

    def test_strange_replies_leave_all_under_way(self) -> None:
        self.other.sendall(b'{"tenant":"acme"}\n{"job":1}\n{"job":"two"}\n')
        with self.assertRaises(StrangeReply):
            self.lane.read()
        self.assertEqual(self.lane.under_way, self.tasks)
        self.other.close()


class Desks(WithHost):
    """A desk whose task is to run alone, and can't."""

    def desk(self, tenant: str) -> Desk[int]:
        """A desk at the host that was tried."""
        host = PlaceOfHost(UnixPlace(self.host.path), Settings(retire=True))
        host.attend(time.monotonic())
        selector = selectors.DefaultSelector()
        self.addCleanup(selector.close)
        desk: Desk[int] = Desk(host, tenant, selector)
        self.addCleanup(desk.close)
        return desk

    def result(self, desk: Desk[int]) -> object:
        """What becomes of the task."""
        desk.feed([Task(1, Prepared(SQUARE).line("submit", (3, 0), 100), alone=True)], time.monotonic())
        deadline = time.monotonic() + SOON
        while not desk.results:
            self.assertLess(time.monotonic(), deadline)
            for key, mask in desk._selector.select(0.05):
                key.data(mask)
            desk.attend(time.monotonic())
        return desk.results[0]

    def test_it_runs(self) -> None:
        self.assertIsInstance(self.result(self.desk("acme")), Ended)
        self.assertEqual(self.host.met["retire"], 1)

    def test_no_host(self) -> None:
        self.host.kill()
        self.assertIsInstance(self.result(self.desk("acme")), NotRun)

    def test_no_such_tenant(self) -> None:
        result = self.result(self.desk("nobody"))
        assert isinstance(result, NotRun)
        self.assertIsInstance(result.fault, UnknownTenant)


class Refusals(WithHost):
    """Jobs that have no outcome."""

    def test_no_host(self) -> None:
        self.host.kill()
        with self.assertRaises(TryAgain) as fault:
            self.pool(patience=0.2).run(job(1), timeout=SOON)
        self.assertIs(fault.exception.done, False)
        self.assertIn("can't be reached", str(fault.exception))

    def test_no_such_tenant(self) -> None:
        with self.assertRaises(Final) as fault:
            self.pool(tenant="nobody").run(job(1), timeout=SOON)
        self.assertIsInstance(fault.exception.fault, UnknownTenant)

    def test_a_job_that_is_none(self) -> None:
        self.host.refusals = [4]
        with self.assertRaises(Final) as fault:
            self.pool().run(job(1), timeout=SOON)
        self.assertIsInstance(fault.exception.fault, BadProgram)

    def test_a_time_limit(self) -> None:
        self.host.go.clear()
        with self.assertRaises(TimedOut):
            self.pool().run(job(1), timeout=0.1)
        self.host.go.set()

    def test_a_silent_host(self) -> None:
        self.host.go.clear()
        with self.assertRaises(TryAgain):
            self.pool(reply=0.2, patience=0.5).run(job(1), timeout=SOON)
        self.host.go.set()

    def test_a_closed_pool(self) -> None:
        self.host.go.clear()
        pool = self.pool()
        future = pool.start(job(1))
        while self.host.met["collect"] < 1:
            time.sleep(0.001)
        pool.close()
        with self.assertRaises(TryAgain):
            future.result(SOON)
        with self.assertRaises(TryAgain):
            pool.start(job(2))
        self.host.go.set()


if __name__ == "__main__":
    unittest.main()
