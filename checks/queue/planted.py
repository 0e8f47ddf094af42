"""A package without the fence: outcomes are recorded by the job's number alone, and a dispatcher that lost its lease goes on. The
check must find what comes of that."""
import pathlib
import shutil

import places

EDITS = {
    "sqlite/statements.py": ("WHERE job.id = new.id AND job.state = 'running' AND job.dispatcher = ? AND job.attempt = new.attempt",
                             "WHERE job.id = new.id AND ? > 0"),
    "postgres/statements.py": ("WHERE job.id = new.id AND job.state = 'running' AND job.dispatcher = ? AND job.attempt = new.attempt RETURNING",
                               "WHERE job.id = new.id AND ? > 0 RETURNING"),
    "turns.py": ("raise LeaseLost(\"its lease had run out, and another dispatcher has taken it away\")",
                 "self.base.change(\"UPDATE dispatcher SET id = ?, name = ? WHERE id = ?\", dispatcher, f\"again:{__import__('os').getpid()}\", "
                 "self.base.register(\"again\", 10.0))"),
}
"""What is replaced in files of the queue, and by what."""


def without_fence(folder: pathlib.Path) -> str:
    """The path of a copy of the package that lacks the fence."""
    shutil.copytree(places.TOP / "python" / "arena", folder / "arena", ignore=shutil.ignore_patterns("__pycache__"))
    for name, (old, new) in EDITS.items():
        path = folder / "arena" / "queue" / name
        text = path.read_text()
        assert text.count(old) == 1, old
        path.write_text(text.replace(old, new))
    return str(folder)
