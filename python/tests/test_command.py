"""The command: which modules it loads, and its version."""
import contextlib
import io
import os
import subprocess
import sys
import tempfile
import tomllib
import unittest

import arena
from arena.command import MODULES, all_commands, commands_of, main, named_command
from arena.command.words import assignment, integer

TOP = os.path.join(os.path.dirname(os.path.abspath(__file__)), "..")
FIB = os.path.join(TOP, "..", "examples", "jobs", "fib.job")


def loaded_by(*words: str) -> set[str]:
    """The modules that are loaded once the command has run."""
    code = f"import sys, arena.command; arena.command.main({words!r}); print(*(it for it in sys.modules), file=sys.stderr)"
    done = subprocess.run([sys.executable, "-c", code], capture_output=True, text=True, cwd=TOP, check=True)
    return set(done.stderr.split())


class Words(unittest.TestCase):
    """Words that a job's file has no use for."""

    def test_refused(self) -> None:
        """No fuel, and a parameter of what has none, of each kind of file."""
        with tempfile.TemporaryDirectory() as folder:
            for name, text in (("a.json", '{"args":[7,0],"fuel":5,"procs":[[["ret",0]]]}'), ("a.jasm", "proc main(n)\n    ret n\n"),
                               ("a.job", "fn main(n) { return n }\n")):
                path = os.path.join(folder, name)
                with open(path, "w", encoding="utf-8") as it:
                    it.write(text)
                for words in (("--fuel", "0"), ("-D", "N=1")):
                    said = io.StringIO()
                    with contextlib.redirect_stderr(said):
                        self.assertEqual(main(("dis", path, *words)), 5, (name, words))
                    self.assertRegex(said.getvalue(), "fuel|-D gives a parameter|no param N")


    def test_out_of_range(self) -> None:
        """Numbers with which nothing would be done, or nothing would end."""
        for words in (("test", FIB, "--schedules", "0"), ("bench", "-c", "0"), ("bench", "-c", "65"), ("bench", "-n", "-1"),
                      ("queue", "run", "D", "--lease", "0"), ("queue", "run", "D", "--connections", "0"),
                      ("queue", "run", "D", "--window", "0"), ("queue", "list", "--limit", "-1")):
            said = io.StringIO()
            with contextlib.redirect_stderr(said), contextlib.redirect_stdout(said):
                with self.assertRaises(SystemExit, msg=words) as ended:
                    main((*words, "-s", "/nowhere", "-t", "acme", *(("-q", "/nowhere") if words[0] == "queue" else ())))
            self.assertEqual(ended.exception.code, 2)
            self.assertRegex(said.getvalue(), f": {words[-1]}: a number ")


class Loading(unittest.TestCase):
    """A call loads what it needs."""

    def test_modules(self) -> None:
        """The table of the modules is that of their commands."""
        for module, names in MODULES.items():
            self.assertEqual(tuple(it.name for it in commands_of(module)), names)
        names = [it.name for it in all_commands()]
        self.assertEqual(len(names), len(set(names)))

    def test_little_is_loaded(self) -> None:
        """A build loads no client, no traces and no host."""
        loaded = loaded_by("build", FIB, "--serial")
        self.assertIn("arena.language", loaded)
        self.assertEqual({it for it in loaded if it.startswith(("arena.client", "arena.trace", "arena.host", "asyncio"))}, set())
        self.assertNotIn("arena.language", loaded_by("lint", os.path.join(TOP, "..", "examples", "server", "config.json")))

    def test_named_command(self) -> None:
        """The command is found among options with and without values."""
        for words, wanted in ((("run", "x"), "run"), (("-t", "run", "stat"), "stat"), (("--json", "--socket", "a", "poll"), "poll"),
                              (("--socket=a", "--timeout", "3", "wait"), "wait"), (("--version",), None), ((), None),
                              (("-t",), None)):
            self.assertEqual(named_command(words), wanted)

    def test_integer(self) -> None:
        """Numbers of --args, and those of -D, are those of a source."""
        for text, wanted in (("1_000", 1000), ("0x1f", 31), ("-0x10", -16), ("0xffffffffffffffff", -1), ("-5", -5),
                             ("9223372036854775808", -(2**63)), ("18446744073709551616", 2**64)):
            self.assertEqual(integer(text), wanted)
            self.assertEqual(assignment(f"N={text}"), ("N", wanted))

    def test_package(self) -> None:
        """What the package offers is there, and nothing else."""
        for name in arena.__all__:
            self.assertIn(name, dir(arena))
            self.assertEqual(getattr(arena, name).__name__, name) if name not in ("Outcome", "Status") else getattr(arena, name)
        with self.assertRaises(AttributeError):
            getattr(arena, "Nothing")


class Version(unittest.TestCase):
    """One version for all."""

    def test_version(self) -> None:
        """The command's is the package's, which its metadata take."""
        out = io.StringIO()
        with contextlib.redirect_stdout(out), self.assertRaises(SystemExit):
            main(["--version"])
        self.assertEqual(out.getvalue(), f"arena {arena.__version__}\n")
        with open(os.path.join(TOP, "pyproject.toml"), "rb") as it:
            project = tomllib.load(it)
        self.assertIn("version", project["project"]["dynamic"])
        self.assertEqual(project["tool"]["setuptools"]["dynamic"]["version"], {"attr": "arena.version.VERSION"})
