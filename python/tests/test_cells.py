"""Which reads of cells may see what other jobs stored."""
import os
import tempfile
import unittest

from arena.cells import reads_of_others
from arena.language import compile_source
from tests.test_authoring import command


def lines(body: str) -> list[int]:
    """The lines of the reads in a source whose `main(n)` has these lines, from line 3 on."""
    compiled = compile_source("cell c\nfn main(n) {\n" + body + "\nreturn n }\ncell d\nfn f(x) { c.local = x }\n")
    found = [compiled.place(it.procedure, it.instruction) for it in reads_of_others(compiled.job)]
    return [int(it.removeprefix("main, line ")) for it in found]


class Cells(unittest.TestCase):
    """Reads on each way."""

    def test_ways(self) -> None:
        """A store must come before a read on each way to it, in the same task, and to the same key."""
        for body, wanted in (
                ("n = c.local", [3]), ("c.local = 1\nn = c.local", []), ("d.local = 1\nn = c.local", [4]),
                ("if n { c.local = 1 }\nn = c.local", [4]), ("if n { c.local = 1 } else { c.local = 2 }\nn = c.local", []),
                ("while n { c.local = n\nn -= 1 }\nn = c.local", [5]), ("c.local = 0\nwhile n { n -= c.local }", []),
                ("while n { n -= c.local\nc.local = 1 }", [3]), ("c.local += 1", [3]), ("n = call f(n)\nn = c.local", [4]),
                ("c.local = 1\nn = c.sum", [4]), ("n = c.count", [3])):
            self.assertEqual(lines(body), wanted, body)

    def test_lint(self) -> None:
        """What `arena lint` says, of a source and of a job in JSON."""
        with tempfile.TemporaryDirectory() as folder:
            source, job = os.path.join(folder, "a.job"), os.path.join(folder, "a.json")
            with open(source, "w", encoding="utf-8") as it:
                it.write("cell c @ 2\nfn main(n) {\n    return c.local\n}\n")
            said = ("the cell of key 2 is read where this task has not stored it on each way: it may have what an earlier job "
                    "stored, or another job at the same time")
            self.assertEqual(command("lint", source), (0, f"{source}: valid\n", f"{source}: warning: main, line 3: {said}\n"))
            command("build", source, "-o", job)
            self.assertEqual(command("lint", job), (0, f"{job}: valid\n", f"{job}: warning: procedure 0, instruction 0: "
                                                    f'["load",2,2]: {said}\n'))
            self.assertRegex(command("--json", "lint", source)[1], r'"valid":true,"warnings":\["main, line 3: ')
