"""The programs that are measured, and their twins, which are compiled when they are first asked for."""
import pathlib
import shutil
import subprocess
import sys
from dataclasses import dataclass, field

HERE = pathlib.Path(__file__).resolve().parent
sys.path.append(str(HERE.parent / "checks" / "cost"))

import building

# How each twin is compiled; @ stands for where it goes.
TWINS = {
    "plain": ["rustc", "--edition", "2021", "-O", "-o", "@", str(HERE / "arena" / "plain.rs")],
    "switch": ["cc", "-O2", "-o", "@", str(HERE / "private_run" / "switch.c")],
}


@dataclass
class Programs:
    """Where the programs of a checkout are, and a folder for the twins."""
    top: pathlib.Path
    room: pathlib.Path
    twins: dict[str, pathlib.Path] = field(default_factory=dict)

    def built(self, name: str) -> pathlib.Path:
        """The program of a crate, or a twin."""
        return self.twin(name) if name in TWINS else building.program(self.top, name)

    def twin(self, name: str) -> pathlib.Path:
        if name not in self.twins:
            place = self.room / name
            subprocess.run([str(place) if word == "@" else word for word in TWINS[name]], check=True)
            self.twins[name] = place
        return self.twins[name]

    def missing(self, tools: tuple[str, ...], crates: tuple[str, ...]) -> list[str]:
        """The tools that are not on the path, and the crates whose programs are not there."""
        lacking = [f"no {tool}" for tool in tools if shutil.which(tool) is None]
        return lacking + [f"{crate} is not built" for crate in crates if not self.built(crate).exists()]
