"""Packs the Python package, and looks at what it is then."""
import shutil
import subprocess
import sys
import tarfile
import zipfile

from serving import PACKAGE, PATIENCE

BACKEND = "from setuptools import build_meta; import sys; print(getattr(build_meta, sys.argv[1])(sys.argv[2]))"


def packer():
    """A Python that has what packs the package, or None."""
    for python in (sys.executable, "/usr/bin/python3"):
        if subprocess.run([python, "-c", "import setuptools, wheel"], capture_output=True).returncode == 0:
            return python
    return None


def package_is_packed(it):
    """The wheel has the package, the pages and its metadata, and runs where it is unpacked."""
    python, folder = packer(), it.server.folder.name
    if python is None:
        print("the package is not packed: no Python here has setuptools and wheel")
        return
    copy = it.server.file("package")
    shutil.copytree(PACKAGE, copy, ignore=shutil.ignore_patterns("__pycache__", "*.egg-info", "build"))
    made = [subprocess.run([python, "-c", BACKEND, f"build_{kind}", folder], capture_output=True, text=True, cwd=copy,
                           timeout=PATIENCE).stdout.split()[-1] for kind in ("wheel", "sdist")]
    import arena
    name, there = f"arena-{arena.__version__}", it.server.file("unpacked")
    with zipfile.ZipFile(it.server.file(made[0])) as archive:
        archive.extractall(there)
        names, metadata = archive.namelist(), archive.read(f"{name}.dist-info/METADATA").decode()
        assert b"arena = arena.command:main" in archive.read(f"{name}.dist-info/entry_points.txt")
    shared = f"{name}.data/data/share"
    wanted = {"arena/py.typed", f"{name}.dist-info/LICENSE", f"{shared}/man/man1/arena.1",
              f"{shared}/bash-completion/completions/arena", f"{shared}/zsh/site-functions/_arena"}
    assert wanted <= {*names}, wanted - {*names}
    assert not any("test" in name.split("/")[-1] and "tests/" in name for name in names)
    assert f"Version: {arena.__version__}\n" in metadata and "Typing :: Typed" in metadata and "# arena\n" in metadata
    done = subprocess.run([sys.executable, "-m", "arena", "lint", it.server.file("seven.json")], capture_output=True,
                          text=True, timeout=PATIENCE, cwd=there)
    assert done.stdout.endswith("seven.json: valid\n"), done
    with tarfile.open(it.server.file(made[1])) as archive:
        assert {f"{name}/pyproject.toml", f"{name}/README.md", f"{name}/LICENSE"} <= {*archive.getnames()}
