"""What helps to write sources: their examples, their usual form, their description, and the words that editors know."""
import contextlib
import io
import json
import os
import random
import re
import sys
import tempfile
import unittest
from unittest import mock

from arena.assembler import AssemblyFault, assemble
from arena.command import main
from arena.command.sources import read_text
from arena.language import SourceFault, compile_source
from arena.language.examples import Difference, differences, examples_of
from arena.language.formatting import formatted
from arena.language.tokens import WORDS
from arena.language.unit import BUILT_IN, FUNCTIONS

TOP = os.path.join(os.path.dirname(os.path.abspath(__file__)), "..")
JOBS = os.path.join(TOP, "..", "examples", "jobs")

UGLY = """

# test  3  -> 7
const   A=0x1f // a constant


fn main( n ,m:u20 ){
  let x=-n+A*( 3-  -2 )   # here
      if !( n<0 )&&x>1 {
    x  <<=1;n+=-1
   }else{ return-1 }
\tfor i in 0 .. n step -1{ group  g;spawn g:f( i )
wait g }
  let y =
  x +
     f2( 1,
  2 )
  c . local  +=  1
  return psum i:u20 in 0..n grain 3{
  give~i }
}
cell c@3
fn f(x){ }
inline fn f2(a,b)=a-b"""
USUAL = """# test  3  -> 7
const A = 0x1f  // a constant

fn main(n, m: u20) {
    let x = -n + A * (3 - -2)  # here
    if !(n < 0) && x > 1 {
        x <<= 1; n += -1
    } else { return -1 }
    for i in 0..n step -1 { group g; spawn g: f(i)
        wait g }
    let y =
        x +
        f2(1,
        2)
    c.local += 1
    return psum i: u20 in 0..n grain 3 {
        give ~i }
}
cell c @ 3
fn f(x) { }
inline fn f2(a, b) = a - b
"""


def command(*words: str, stdin: str = "") -> tuple[int, str, str]:
    """What the command answers: its status, and what it prints and complains. No server is named but by the words."""
    out, err = io.StringIO(), io.StringIO()
    rest = {name: value for name, value in os.environ.items() if not name.startswith("ARENA_")}
    with contextlib.redirect_stdout(out), contextlib.redirect_stderr(err), mock.patch.dict(os.environ, rest, clear=True), \
            mock.patch.object(sys, "stdin", io.StringIO(stdin)):
        status = main(words)
    return status, out.getvalue(), err.getvalue()


def jobs() -> list[tuple[str, str]]:
    """The paths and texts of the examples."""
    found = []
    for name in sorted(os.listdir(JOBS)):
        with open(os.path.join(JOBS, name), encoding="utf-8") as it:
            found.append((os.path.join(JOBS, name), it.read()))
    return found


class Examples(unittest.TestCase):
    """Examples in comments."""

    def test_right(self) -> None:
        """Those of the sources in the repository."""
        status, out, err = command("test", "--schedules", "3", *(path for path, _ in jobs()))
        self.assertEqual((status, err), (0, ""))
        self.assertRegex(out, r"^[0-9]{2} examples, 3 schedules each: 0 wrong\n$")

    def test_wrong(self) -> None:
        """A value, a fault and a cell that are another one."""
        source = "param N = 1\ncell seen\nfn main(n) {\n    seen.local += N\n    post f(n)\n    return 6 / n\n}\nfn f(n) { seen.local += n }\n"
        for line, found in (("# test 2 -> 3", ""), ("# test 2 -> 4", "3"), ("// test 0 -> 6", "fault 1, division by zero"),
                            ("# test 0 -> fault 1", ""), ("# test 0 -> fault 2", "fault 1, division by zero"),
                            ("# test 2 -> 3, seen.sum = 3", ""), ("# test N=0x10 2 -> 3, seen.sum = 18", ""),
                            ("  # test 2 -> 3, seen.sum = 4", "seen.sum = 3"), ("# test 2 -> 3, noted.sum = 1", "no cell noted")):
            example, = examples_of(f"# first\n{line}\n{source}")
            self.assertEqual(example.line, 2)
            wrong = list(differences(source, example, random.Random(1), 4, "a"))
            self.assertEqual([it.found for it in wrong], [found] * 4 if found else [], line)
            self.assertTrue(not wrong or isinstance(wrong[0], Difference) and wrong[0].slots == 1)

    def test_refused(self) -> None:
        """Examples that can't be read, and comments that are none."""
        for line in ("# test x -> 1", "# test 1 -> ", "# test 1 -> fault 9", "# test 1 -> 1, seen = 2"):
            with self.assertRaisesRegex(SourceFault, "an example is `# test 10 0 -> 55`"):
                examples_of(line)
        self.assertEqual(examples_of("# testing -> 1\n# a test: 5 -> 6\n# test this\n"), [])

    def test_command(self) -> None:
        """The status, and what is said."""
        with tempfile.TemporaryDirectory() as folder:
            path = os.path.join(folder, "a.job")
            for text, status, out, err in (
                    ("# test 1 -> 2\nfn main(n) { return n }\n", 1, "1 example, 8 schedules each: 1 wrong\n",
                     f"{path}:1: # test 1 -> 2: found 1 on 1 slot, and on 7 of the other schedules\n"),
                    ("fn main(n) { return n }\n", 1, "no example: write `# test 10 0 -> 55`\n", ""),
                    ("# test 1 2 3 -> 2\nfn main(n) { return n }\n", 5, "", f"arena: {path}:1: a job has two arguments, and here "
                     "are 3: give parameters of main a width, such as lo: u20\n"),
                    ("# test 1 -> 2\nfn main(n) { return m }\n", 5, "", f"arena: {path}:2:21: m is not known here: declare it by "
                     "`let`; alive are n\n    fn main(n) { return m }\n                        ^\n")):
                with open(path, "w", encoding="utf-8") as it:
                    it.write(text)
                self.assertEqual(command("test", path), (status, out, err))


class Form(unittest.TestCase):
    """The usual form."""

    def test_worked(self) -> None:
        """A source that is in no form, and one that is in the usual one."""
        self.assertEqual(formatted(UGLY), USUAL)
        self.assertEqual(formatted(USUAL), USUAL)
        self.assertEqual(compile_source(UGLY).job, compile_source(USUAL).job)

    def test_examples(self) -> None:
        """The sources in the repository are in the usual form, and are the same in it after their spaces were changed."""
        draws = random.Random(1)
        for path, text in jobs():
            self.assertEqual(formatted(text), text, path)
            code = "".join(line if line.startswith("#") else re.sub(" ", lambda _: " " * draws.randint(1, 3), line)
                           for line in text.splitlines(keepends=True))
            self.assertEqual(formatted(code), text, path)

    def test_command(self) -> None:
        """A file is written only if it is in another form, and not with --check."""
        with tempfile.TemporaryDirectory() as folder:
            path = os.path.join(folder, "a.job")
            with open(path, "w", encoding="utf-8") as it:
                it.write(UGLY)
            self.assertEqual(command("fmt", "--check", path), (1, "", f"{path}: not in the usual form; `arena fmt {path}` writes "
                                                               "it\n"))
            self.assertEqual(command("fmt", path), (0, "", ""))
            with open(path, encoding="utf-8") as it:
                self.assertEqual(it.read(), USUAL)
            self.assertEqual(command("fmt", "--check", path), (0, "", ""))
            self.assertEqual(os.listdir(folder), ["a.job"])
            link = os.path.join(folder, "link.job")
            os.symlink("a.job", link)
            with open(path, "w", encoding="utf-8") as it:
                it.write(UGLY)
            self.assertEqual(command("fmt", link), (0, "", ""))
            self.assertEqual(os.readlink(link), "a.job")
            with open(path, encoding="utf-8") as it:
                self.assertEqual(it.read(), USUAL)


class Ends(unittest.TestCase):
    """What ends a line, and what stands in one."""

    def test_comment(self) -> None:
        """A comment goes on behind what only Python takes for the end of a line."""
        for end in "\x0b\x0c\x1c\x1d\x1e\x85\u2028\u2029\r":
            text = f"# a{end}# test 1 -> 2\nfn main(n) {{\n    let a = n  # b{end}c\n    return a  # d\n}}\n"
            self.assertEqual((formatted(text), examples_of(text)), (text, []), repr(end))
            with self.assertRaises(SourceFault) as caught:
                compile_source(text.replace("return a", "return b"))
            self.assertIn(":4:12: b is not known here: declare it by `let`; alive are a and n\n        return b  # d\n",
                          caught.exception.report())
            with self.assertRaisesRegex(AssemblyFault, ":2:13: "):
                assemble(f"proc main(n)  ; a{end}b\n        ret q\n")

    def test_file(self) -> None:
        """A carriage return ends no line by itself, as for arena-compile, also in a file and in standard input."""
        source = b"fn main(n) {\r\n    let a = 1  # b\r a = 2\r\n    return a\r\n}\r\n"
        with tempfile.TemporaryDirectory() as folder:
            path = os.path.join(folder, "a.job")
            with open(path, "wb") as it:
                it.write(source)
            _, out, _ = command("build", "--python", path)
            self.assertEqual(json.loads(out)["procs"], [[["set", 2, 1], ["ret", 2]]])
            self.assertEqual(command("fmt", "--check", path), (0, "", ""))
            with mock.patch.object(sys, "stdin", io.TextIOWrapper(io.BytesIO(source), encoding="utf-8")):
                self.assertEqual(read_text("-"), source.decode().replace("\r\n", "\n"))


class Descriptions(unittest.TestCase):
    """What `arena doc` prints, and what editors know."""

    def test_doc(self) -> None:
        """Of a source with all that is described."""
        with tempfile.TemporaryDirectory() as folder:
            path = os.path.join(folder, "a.job")
            with open(path, "w", encoding="utf-8") as it:
                it.write("# Counts.\n# test 2 -> 2\n\nparam N = 3\ncell seen @ 4\n# Adds\n# one.\nfn main(n, m: u20) {\n"
                         "    seen.local = 1\n    return n\n}\ninline fn f(a) = a\n")
            self.assertEqual(command("doc", path), (0, (
                "# a.job\n\nCounts.\n\nThe job is not serial: a schedule may change its value.\n\n- `param N = 3`\n"
                "- `cell seen @ 4`\n\n## `fn main(n, m: u20)`\n\nAdds one.\n\n3 instructions.\n\n## `inline fn f(a)`\n\n"
                "## Examples\n\n- `2 -> 2`\n"), ""))

    def test_words_of_editors(self) -> None:
        """The words of the language, in the grammar of TextMate and in Vim's."""
        words = {*WORDS, *BUILT_IN, *FUNCTIONS, "step"}
        with open(os.path.join(TOP, "editors", "job.tmLanguage.json"), encoding="utf-8") as it:
            patterns = [pattern["match"] for pattern in json.load(it)["patterns"]]
        for pattern in patterns:
            re.compile(pattern)
        with open(os.path.join(TOP, "editors", "job.vim"), encoding="utf-8") as it:
            vim = it.read()
        known = re.findall(r"[a-z]+", " ".join(re.findall(r"\\b\(([a-z|]+)\)", " ".join(patterns))))
        self.assertEqual(set(known), words)
        shown = " ".join(re.findall(r"^syntax keyword \w+ (.*)$", vim, re.M)).split()
        shown += re.findall(r"[a-z]+", " ".join(re.findall(r"jobFunction /(.*)\\ze", vim)))
        self.assertEqual(set(shown), words)
