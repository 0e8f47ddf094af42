"""What the prover says of some functions of a crate, over the libraries that `rt ci` or `rt lib` left in out/."""
import dataclasses
import pathlib
import re
import shutil
import subprocess
import sys
import tempfile

sys.path.append(str(pathlib.Path(__file__).resolve().parents[1] / "build"))

from crates import below, read_crates
from stubs import stub_out

KIT = pathlib.Path(shutil.which("rt") or "rt").resolve().parents[1]
# what one check may take
SECONDS = 2400
# the first line of a function; a proof file that names what a wrong body took away: that says nothing of the contract
HEAD = re.compile(r"\s*(?:pub(?:\([a-z]+\))? )?fn (\w+)")
NAMES = re.compile(r"has no field|is not in scope|has no `|was not admitted")


def library(name: str) -> pathlib.Path:
    """Returns where a crate's library is built."""
    return pathlib.Path("crates", name, "out/rlib", f"{name}.rlib").absolute()


def is_fresh(name: str) -> bool:
    """Whether a crate's library is there and later than each file that it was made of."""
    made = library(name)
    parts = (pathlib.Path("crates", name, part) for part in ("src", "specs", "proofs"))
    files = [file for part in parts for file in part.rglob("*") if file.is_file()]
    return made.exists() and all(file.stat().st_mtime <= made.stat().st_mtime for file in files)


def build_libraries(crates: dict[str, list[str]], names: list[str]) -> None:
    """Has `rt lib` prove and build each library below some crates that is not there, lowest first."""
    for name in dict.fromkeys(other for name in names for other in below(crates, name)):
        if not is_fresh(name):
            print(f"{name}: its library is not there, or older than its sources: rt lib", flush=True)
            if subprocess.run(["rt", "lib"], cwd=f"crates/{name}", stdout=subprocess.DEVNULL).returncode:
                sys.exit(f"{name} is not proved: rt lib says why")


def words_for(crates: dict[str, list[str]], name: str, functions: list[str]) -> list[str]:
    """Returns the command that checks these functions of a crate, and takes by its statement what has a hole for a proof."""
    own = [other for other in crates[name] if other in crates]
    root = next(it for it in ("src/lib.rt", "src/main.rt") if pathlib.Path("crates", name, it).exists())
    words = [str(KIT / "bin/rattle"), "check", "--crate-name", name, root, "-L", f"dependency={KIT}/rlibs"]
    for other in ["std", *(other for other in crates[name] if other not in crates)]:
        words += ["--extern", f"{other}={KIT}/rlibs/{other}.rlib"]
    for other in own:
        words += ["--extern", f"{other}={library(other)}"]
    for other in below(crates, name):
        words += ["-L", f"dependency={library(other).parent}"]
    words += ["--antt-project", f"{KIT}/rattle/logic/antt-project.json", "--logic-built", f"{KIT}/logic_built"]
    words += ["--links", f"{name}=", "--jobs", "1", "--allow-holes"]
    return [*words, *(word for it in functions for word in ("--only", it))]


def name_at(lines: list[str]) -> str:
    """Returns the name of the last function that begins in these lines of a source."""
    found = [head[1] for head in map(HEAD.match, lines) if head]
    return found[-1] if found else ""


@dataclasses.dataclass
class Said:
    """What a check said of a crate, over some texts in place of its files."""

    crate: str
    texts: dict[str, str]
    text: str

    @property
    def has_judged(self) -> bool:
        """Whether the texts could be read, so that the prover came to an end with each function."""
        return re.search(r"^only=\d+ holes=\d+$", self.text, re.M) is not None

    def verdict(self, function: str) -> str:
        """Returns what stands behind a function's name, or nothing if it has no line."""
        found = re.search(rf"^fn {re.escape(f'{self.crate}::{function}')}: (.*)$", self.text, re.M)
        return found[1] if found else ""

    def is_hidden(self, function: str, others: list[str]) -> bool:
        """Whether a function calls one of these others, which is not proved, so that its verdict may be for that alone. It
        may also be one that a long verdict leaves out."""
        _, _, called = self.verdict(function).partition("it calls `")
        return any(f"{self.crate}::{other}`" in called for other in others) or " more" in called

    def open_goals(self, file: str, function: str) -> list[str]:
        """Returns the goals of a function that are not proved: what its proof can't say, and what nothing answers."""
        folder = re.escape(f"proofs/{function.replace('::', '/')}/")
        errors = re.findall(rf"^(?:\./)?{folder}\S+: error: (.*)$", self.text, re.M)
        notes = re.findall(rf"^note: {re.escape(file)}:(\d+):\d+: (it is not proved that .*)$", self.text, re.M)
        lines, name = self.texts[file].splitlines(), function.split("::")[-1]
        own = [note for at, note in notes if name_at(lines[:int(at)]) == name]
        return [error for error in errors if not NAMES.search(error)] + own

    def is_refused(self, file: str, function: str) -> bool:
        """Whether a function's own goals are not proved, and not just for names that its proof can't find."""
        verdict = self.verdict(function)
        is_proved = not verdict.startswith(("not proved", "no proof: "))
        has_goals = "did not prove" in verdict or self.open_goals(file, function)
        return not is_proved and bool(has_goals)

    def first_lines(self) -> str:
        """Returns the lines in which the check begins to complain."""
        lines = [line for line in self.text.splitlines() if "error" in line] or self.text.splitlines()
        return "\n".join(lines[:6])


def ask(crates: dict[str, list[str]], name: str, texts: dict[str, str], functions: list[str], kept: str) -> Said:
    """Returns what the prover says of these functions of a crate, with these texts in place of its own files, and by the
    contracts of what they call. What it has checked stays in the folder `kept`, and is taken from there by the next call."""
    with tempfile.TemporaryDirectory(prefix=f"wrong-{name}-") as folder:
        for part in ("src", "specs", "proofs"):
            if pathlib.Path("crates", name, part).is_dir():
                shutil.copytree(pathlib.Path("crates", name, part), pathlib.Path(folder, part))
        for file, text in texts.items():
            pathlib.Path(folder, file).write_text(text)
        stub_out(name, pathlib.Path(folder), set(functions))
        pipes = {"stdin": subprocess.DEVNULL, "stdout": subprocess.PIPE, "stderr": subprocess.STDOUT}
        command = [*words_for(crates, name, functions), "--incremental", kept]
        ran = subprocess.run(command, cwd=folder, text=True, errors="replace", timeout=SECONDS, **pipes)
        return Said(name, texts, ran.stdout)
