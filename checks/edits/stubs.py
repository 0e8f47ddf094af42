"""Functions without bodies: what a wrong body calls is taken by its contract, so that it need not be proved once more."""
import dataclasses
import pathlib
import re
import shutil

# where a type is defined; an `impl` block of a type's own methods, and any other block; the first line of a function
TYPE = re.compile(r"(?:pub(?:\([a-z]+\))? )?(?:struct|enum) (\w+)", re.M)
OWN_IMPL = re.compile(r"impl(?:<.*?>)? (\w+)(?:<.*>)? \{")
BLOCK = re.compile(r"(?:unsafe )?(?:impl|trait|mod)\b.*\{")
HEAD = re.compile(r"( *)(?:pub(?:\([a-z]+\))? )?fn (\w+)")
# a hole: under --allow-holes the prover takes the function by its statement
HOLE = """use Rattle.{crate}.proofs.{place}.Statement.{{statement}}

pub {name}_spec : {{M : Type 1}} → statement M
{name}_spec = ?
"""


@dataclasses.dataclass(frozen=True)
class Body:
    """A function's body: its first and its last line, with the braces."""

    function: str
    first: int
    last: int


def module_of(file: str) -> str:
    """Returns the path of a source's module below the crate, with :: behind it."""
    parts = pathlib.PurePath(file).with_suffix("").parts[1:]
    return "".join(f"{part}::" for part in parts if part not in ("lib", "main"))


def body_at(lines: list[str], at: int, indent: str) -> tuple[int, int] | None:
    """Returns the first and the last line of the body of the function whose first line this is, unless it is empty."""
    begins = re.compile(rf"{indent}(?:\S.*)?\{{(\}}?)")
    for first in range(at, len(lines)):
        if begun := begins.fullmatch(lines[first]):
            return None if begun[1] else (first, lines.index(f"{indent}}}", first))
    return None


def bodies_of(module: str, homes: dict[str, str], lines: list[str]) -> list[Body]:
    """Returns the bodies of a module's free functions and of the own methods of the crate's types, which are named by the
    module that their type is defined in, as `rt fmt` lays them out. A type of the module itself comes before one of its name
    elsewhere."""
    homes = {**homes, **dict.fromkeys(TYPE.findall("\n".join(lines)), module)}
    found, before = [], module
    for at, line in enumerate(lines):
        if BLOCK.match(line):
            own = OWN_IMPL.fullmatch(line)
            before = f"{homes[own[1]]}{own[1]}::" if own and own[1] in homes else None
        elif line == "}":
            before = module
        head = HEAD.match(line)
        if not head or before is None or (before == module) != (head[1] == "") or "#[cycle" in lines[at - 1]:
            continue
        if body := body_at(lines, at, head[1]):
            found.append(Body(f"{before}{head[2]}", *body))
    return found


def stub_out(crate: str, folder: pathlib.Path, kept: set[str]) -> None:
    """Takes away the bodies and the proofs of a crate's copy, of all its free functions and own methods but those that are
    kept, and lets each of them be taken by its contract. Methods of traits stay as they are."""
    sources = {source: source.read_text() for source in folder.glob("src/**/*.rt")}
    modules = {source: module_of(str(source.relative_to(folder))) for source in sources}
    homes = {name: modules[source] for source, text in sources.items() for name in TYPE.findall(text)}
    for source, text in sources.items():
        lines = text.splitlines()
        for body in bodies_of(modules[source], homes, lines):
            if body.function not in kept:
                # the lines stay as many, since the prover names goals by them
                lines[body.first] += " unreachable!()"
                lines[body.first + 1 : body.last] = [""] * (body.last - body.first - 1)
                leave_hole(crate, folder, body.function)
        source.write_text("\n".join(lines) + "\n")


def leave_hole(crate: str, folder: pathlib.Path, function: str) -> None:
    """Puts a hole in the place of a function's proof."""
    *above, name = function.split("::")
    own = folder.joinpath("proofs", *above, name)
    for file in ("Answers.antt", "Invariants.antt"):
        own.joinpath(file).unlink(missing_ok=True)
    # the proofs of its closures
    shutil.rmtree(folder.joinpath("proofs", *above, "fn", name), ignore_errors=True)
    own.mkdir(parents=True, exist_ok=True)
    own.joinpath("Proof.antt").write_text(HOLE.format(crate=crate, place=function.replace("::", "."), name=name))
