"""Where things are: the top of the repository, the package, the examples, and other checks' modules."""
import importlib.util
import os
import sys
from collections.abc import Iterator
from types import ModuleType

ROOT = os.path.abspath(os.path.join(os.path.dirname(__file__), "..", ".."))
PROVED = os.path.join(ROOT, "crates/script_program/out/script_program")
UNPROVED = os.path.join(ROOT, "out/unproved/arena-script")
# arena-script: the proved one, or else one that was built without proofs.
PROGRAM = UNPROVED if os.path.exists(UNPROVED) and not os.path.exists(PROVED) else PROVED
EXAMPLES = os.path.join(ROOT, "examples/jobs")

# The package that is checked. The check of planted faults has copies of it elsewhere.
PACKAGE = os.environ.get("ARENA_PYTHON", os.path.join(ROOT, "python"))
sys.path.insert(0, PACKAGE)


def module_of(name: str, path: str) -> ModuleType:
    """A module of another check, by its path in the repository."""
    spec = importlib.util.spec_from_file_location(name, os.path.join(ROOT, path))
    module = importlib.util.module_from_spec(spec)
    sys.modules[name] = module
    spec.loader.exec_module(module)
    return module


def worked_jobs() -> dict[str, dict]:
    """The jobs of `worked_jobs` by their names."""
    return module_of("script", "checks/scripts/script.py").worked_jobs()


def examples() -> Iterator[tuple[str, str]]:
    """The names and texts of the examples in the language."""
    for name in sorted(os.listdir(EXAMPLES)):
        with open(os.path.join(EXAMPLES, name)) as it:
            yield name, it.read()
