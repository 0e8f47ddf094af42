"""Whether a server was built without proofs, seen by the program that its process runs."""
import enum
import mmap
import os

CHECKER = b"__asan_init"
"""A name in each program that is built without proofs: its checks of memory are those of the address sanitizer."""

PROGRAMS = ("arena-server", "arena-host", "server_program", "host_program")
"""What the programs are called, installed or as the kit builds them."""


class Build(enum.Enum):
    """How a server was built; the values are for JSON."""

    PROVED = "proved"
    UNPROVED = "unproved"

    def __str__(self) -> str:
        if self is Build.PROVED:
            return "the server is a proved build"
        return "the server is an unproved build, a hundred times slower than the proved one or more"


def build_of(process: int | None) -> Build | None:
    """How the server that a process runs was built; None if that can't be seen from here, as of another user's process."""
    if process is None:
        return None
    try:
        name = os.path.basename(os.readlink(f"/proc/{process}/exe").removesuffix(" (deleted)"))
        with open(f"/proc/{process}/exe", "rb") as it, mmap.mmap(it.fileno(), 0, access=mmap.ACCESS_READ) as program:
            is_checked = program.find(CHECKER) >= 0
    except (OSError, ValueError):
        return None
    if name not in PROGRAMS:
        return None
    return Build.UNPROVED if is_checked else Build.PROVED
