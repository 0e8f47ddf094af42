"""The proved compiler, where it is there: which compiler makes a job, and what is said of it."""
import os
import pathlib
import subprocess
import sys
import tempfile
import unittest
from unittest import mock

from arena.command.proving import proved


class Proving(unittest.TestCase):
    """A stand-in for arena-compile, as ARENA_COMPILE names it."""

    def said(self, script: str, *parameters: tuple[str, int]) -> tuple[str | None, str]:
        """The line that a stand-in gives for arguments 3 and -1 and these params, and which compiler is named for it."""
        with tempfile.TemporaryDirectory() as room:
            program = pathlib.Path(room, "arena-compile")
            program.write_text(f"#!/bin/sh\n{script}\n")
            program.chmod(0o755)
            with mock.patch.dict(os.environ, {"ARENA_COMPILE": str(program)}):
                found = proved("fn main(n) { }\n", (3, -1), parameters)
            assert found is not None
            return found.text, found.told("f.job").replace(str(program), "PROGRAM")

    def test_its_job_is_taken(self) -> None:
        """The program gets the source and the arguments."""
        self.assertEqual(self.said('read -r line; echo "$1 $2 $line"'),
                         ("3 -1 fn main(n) { }", "f.job: compiled by PROGRAM"))

    def test_params_are_given_before_the_arguments(self) -> None:
        """The program gets them in their order."""
        self.assertEqual(self.said('echo "$*"', ("N", 8), ("M", -1))[0], "-D N=8 -D M=-1 3 -1")

    def test_a_refused_source_is_compiled_in_python(self) -> None:
        """Its fault is said."""
        self.assertEqual(self.said('echo "1:4: no" >&2; exit 1'), (None, "f.job: compiled in Python, since PROGRAM says 1:4: no"))

    def test_without_the_program_nothing_is_said(self) -> None:
        """Neither the variable nor the PATH names one."""
        with tempfile.TemporaryDirectory() as room, mock.patch.dict(os.environ, {"PATH": room}):
            os.environ.pop("ARENA_COMPILE", None)
            self.assertIsNone(proved("fn main() { }\n", ()))


class Building(unittest.TestCase):
    """`arena build` beside a stand-in, which gives a job that the compiler in Python would not make."""

    JOB = '{"args":[3,-1],"fuel":1000000,"procs":[[["sub",0,1,0],["ret",0]]]}'
    LISTING = "proc main    ; 0"

    def built(self, *words: str, source: str = "fn main(a, b) { return a + b }\n") -> tuple[str, str]:
        """What `arena build` prints with these words, and its standard error without the program's path."""
        with tempfile.TemporaryDirectory() as room:
            program, file = pathlib.Path(room, "arena-compile"), pathlib.Path(room, "f.job")
            program.write_text(f"#!/bin/sh\n[ \"$1\" = --listing ] && echo '{self.LISTING}' || echo '{self.JOB}'\n")
            program.chmod(0o755)
            file.write_text(source)
            done = subprocess.run([sys.executable, "-m", "arena", "build", str(file), "--args", "3", "-1", *words],
                                  capture_output=True, text=True, env={**os.environ, "ARENA_COMPILE": str(program)})
            self.assertEqual(done.returncode, 0)
            return done.stdout.strip(), done.stderr.strip().replace(f"{room}/", "")

    def test_the_job_and_its_listing_are_of_the_same_compiler(self) -> None:
        """What -S lists is what is built."""
        self.assertEqual(self.built(), (self.JOB, "f.job: compiled by arena-compile"))
        self.assertEqual(self.built("-S"), (self.LISTING, "f.job: compiled by arena-compile"))

    def test_params_are_given_to_both(self) -> None:
        """The job is still that of the proved compiler."""
        source = "param N = 4\nfn main(a, b) { return a + N }\n"
        self.assertEqual(self.built("-D", "N=5", source=source), (self.JOB, "f.job: compiled by arena-compile"))

    def test_python_builds_what_the_map_is_of(self) -> None:
        """With --python the job, its listing and its map are of the compiler in Python, and nothing is said."""
        job, said = self.built("--python")
        self.assertEqual(said, "")
        self.assertIn('"procs":[[["add",0,0,1],["ret",0]]]', job)
        self.assertIn("; 0, line 1", self.built("-S", "--python")[0])
        self.assertIn('"procs":[[["add",0,0,1],["ret",0]]]', self.built("--map", "--python")[0])

    def test_a_map_beside_the_proved_compiler_says_which_job_it_is_of(self) -> None:
        """The proved compiler tells no lines of the source."""
        self.assertEqual(self.built("--map")[1], "f.job: the map is of the job compiled in Python, which --python builds")
