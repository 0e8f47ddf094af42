"""Which files an installation has, and of what mode: the list that installations and packages are compared with."""
import subprocess

from room import TOP

# Mode and path below the prefix; @zsh@ is zsh's folder, @z@ the ending of manual pages.
ALWAYS = """
755 bin/arena
644 share/bash-completion/completions/arena
644 share/zsh/@zsh@/_arena
644 share/man/man1/arena.1@z@
644 share/doc/arena/README.md
644 share/doc/arena/examples/arena-server.service
"""
OF_PROGRAM = {
    "arena-compile": "755 bin/arena-compile\n644 share/man/man1/arena-compile.1@z@",
    "arena-script": "755 bin/arena-script\n644 share/man/man1/arena-script.1@z@",
    "arena-server": "755 bin/arena-server\n644 share/man/man8/arena-server.8@z@",
    "arena-host": """755 bin/arena-host
644 share/man/man8/arena-host.8@z@
644 lib/systemd/system/arena-host.service
644 lib/sysusers.d/arena.conf
644 lib/tmpfiles.d/arena.conf""",
}
# What git knows goes with the folder that it is in.
FOLDERS = {"python/arena": "lib/arena-python/arena", "docs": "share/doc/arena",
           "examples/jobs": "share/doc/arena/examples/jobs", "examples/server": "share/doc/arena/examples/server",
           "examples/haproxy": "share/doc/arena/examples/haproxy"}
COMMANDS = ("certificates.sh", "move.py", "stop.py", "tunnel.py")
SUFFIXES = {"docs": (".md", ".svg")}


def known(folder: str) -> list[str]:
    """The files of a folder that git knows, by their paths from there."""
    done = subprocess.run(["git", "-C", TOP, "ls-files", "-co", "--exclude-standard", folder], capture_output=True, text=True,
                          check=True)
    return [it[len(folder) + 1:] for it in done.stdout.splitlines() if it.endswith(SUFFIXES.get(folder, ""))]


def expected(programs: set[str], prefix: str, is_debian: bool) -> dict[str, int]:
    """The modes of all files of an installation, by their paths from the root."""
    text = "\n".join([ALWAYS, *(OF_PROGRAM[it] for it in programs)])
    text = text.replace("@zsh@", "vendor-completions" if is_debian else "site-functions")
    text = text.replace("@z@", ".gz" if is_debian else "")
    modes = {f"{prefix}/{path}": int(mode, 8) for mode, path in (line.split() for line in text.split("\n") if line)}
    for folder, there in FOLDERS.items():
        for path in known(folder):
            modes[f"{prefix}/{there}/{path}"] = 0o755 if path in COMMANDS else 0o644
    return {**modes, "etc/arena/config.json": 0o644}
