"""What the tree has: its paths, the targets of the Makefile, the commands of `arena`, and the names and texts of its code."""
import ast
import collections
import pathlib
import re
import subprocess
from collections.abc import Iterator

from spans import TOP

WORD = re.compile(r"(?<!\w)[A-Za-z_]\w*(?:-\w+)*")
TEXT = re.compile(r'"((?:[^"\\]|\\.)*)"')
DEFINITION = re.compile(r"\b(?:fn|struct|enum|trait|const|type|mod|ghost|requires|ensures)\s+(\w+)|\b(\w+)\s*:(?!:)")
CONTAINER = re.compile(r"^(?:pub )?(?:impl\b.*?(?:\bfor )?(\w+)(?:<[^{]*)?\s*\{|(?:struct|enum|trait) (\w+))")
SPEC = re.compile(r"^(?:abbrev )?(?:pub )?(?:record |data )?([\w-]+)|(?:pub )?\b([\w-]+) :")


def folders_of(path: str) -> Iterator[str]:
    """Yields a path, the same without its ending, and each folder that it is in."""
    yield path
    yield path.removesuffix(pathlib.PurePath(path).suffix)
    yield from (str(folder) for folder in pathlib.PurePath(path).parents if folder.name)


class Tree:
    """The paths of the tree, and their ends (`paths`, `ends`); the names that the code defines (`names`), which of them are
    functions, types and variants (`called`), those of each type and each crate (`within`), and what the types of each crate
    are seen as (`values`); the words that are a text of the code or a member in one (`texts`), and all words of its texts
    (`said`)."""

    def __init__(self) -> None:
        """Reads the tree as git knows it."""
        command = ["git", "ls-files", "-co", "--exclude-standard"]
        listed = subprocess.run(command, cwd=TOP, stdout=subprocess.PIPE, text=True, check=True)
        self.files = [path for path in listed.stdout.splitlines() if (TOP / path).exists()]
        self.paths = {folder for path in self.files for folder in folders_of(path)}
        self.ends = {"/".join(parts[n:]) for parts in (path.split("/") for path in self.paths) for n in range(len(parts))}
        self.names, self.texts, self.said, self.called = set(), set(), set(), set()
        self.within = collections.defaultdict(set)
        self.values = collections.defaultdict(set)
        makefile = (TOP / "Makefile").read_text()
        self.targets = set(re.findall(r"^([a-z-]+):", makefile, re.M))
        self.add_text(makefile)
        for line in (TOP / "crates.txt").read_text().splitlines():
            self.names.update(WORD.findall(line.split("#")[0]))
        for path in self.files:
            self.read(path)
        self.commands = set(re.findall(r'\bCommand\("([a-z-]+)"', self.source("python/arena/command/")))

    def source(self, folder: str) -> str:
        """The text of all files of Python below a folder."""
        return "\n".join((TOP / path).read_text() for path in self.files if path.startswith(folder) and path.endswith(".py"))

    def read(self, path: str) -> None:
        """Takes the names and texts of one file of code; a file's own name is one, too."""
        self.names.update(re.split(r"[/.]", path))
        if path.endswith(".py") and not path.startswith("checks/pages/"):
            self.read_python(path)
        elif path.startswith("crates/") and path.endswith(".rt"):
            self.read_rattle(path)
        elif path.startswith("crates/") and path.endswith(".antt"):
            self.read_definitions(path)
        elif path.endswith((".service", ".cfg")):
            self.texts.update(re.findall(r"^\s*(\w+)[ =]", (TOP / path).read_text(), re.M))
        elif path.endswith((".sh", ".json", ".jsonl", ".toml", ".bash")) or path.startswith("examples/"):
            self.add_text((TOP / path).read_text())

    def read_python(self, path: str) -> None:
        """Takes what a file of Python defines, names as it calls something, or assigns to, and its strings."""
        for node in ast.walk(ast.parse((TOP / path).read_text())):
            match node:
                case ast.FunctionDef(name=name) | ast.AsyncFunctionDef(name=name) | ast.ClassDef(name=name):
                    self.names.add(name)
                    self.called.add(name)
                case ast.Name(id=name, ctx=ast.Store()) | ast.arg(arg=name) | ast.keyword(arg=str(name)):
                    self.names.add(name)
                case ast.Constant(value=str(text)):
                    self.add_text(text)

    def read_rattle(self, path: str) -> None:
        """Takes the definitions of a source, also as those of its crate and of the type in whose block each stands."""
        crate, container = path.split("/")[1], None
        for line in (TOP / path).read_text().splitlines():
            for text in TEXT.findall(line):
                self.add_text(text.replace('\\"', '"'))
            line = TEXT.sub('""', line).split("//")[0]
            if found := CONTAINER.match(line):
                container = found.group(1) or found.group(2)
            names = {a or b for a, b in DEFINITION.findall(line)}
            if variant := re.match(r"    (\w+)\b\s*(?:[({,=]|$)", line):
                names.add(variant.group(1))
            self.called.update(re.findall(r"\b(?:fn|struct|enum|trait) (\w+)", line))
            self.called.update(re.findall(r"^    ([A-Z]\w*)\(", line))
            self.names |= names
            self.within[crate] |= names
            if container:
                self.within[container] |= names
            if value := re.search(r"\bghost Value\b[^=]*= \{ \(?(\w+)", line):
                self.values[crate].add(value.group(1))
            if line.startswith("}"):
                container = None

    def read_definitions(self, path: str) -> None:
        """Takes the names of a file of definitions or proofs, and of the fields and cases in it."""
        crate = path.split("/")[1]
        for line in (TOP / path).read_text().splitlines():
            for text in TEXT.findall(line):
                self.add_text(text.replace('\\"', '"'))
            line = TEXT.sub('""', line).split("-- ")[0]
            if not line.startswith("use "):
                names = {a or b for a, b in SPEC.findall(line)}
                self.names |= names
                self.within[crate] |= names

    def add_text(self, text: str) -> None:
        """Takes the words of one string of the code: as a whole if it has no space, and each that stands in quotes in it."""
        words = WORD.findall(text)
        self.said.update(words)
        if " " not in text and len(text) < 60:
            self.texts.add(text.strip(":-_ "))
        self.texts.update(re.findall(r'"([\w-]+)"', text))

    def has_path(self, path: str, folder: str = "") -> bool:
        """Whether a path is there: in a folder, or, without one, as the end of any path."""
        path = path.strip("/")
        return f"{folder}/{path}" in self.paths if folder else path in self.ends
