"""The manual pages and the completions."""
import re

from room import TOP, Room, need, run

# Where the words of a program stand, in the order of the pages.
WORDS = {"arena-server.8": "docs/OPERATIONS.md", "arena-host.8": "docs/HOST.md"}


def manuals_are_read(room: Room) -> None:
    """`man` has no warning for any page."""
    need("man")
    for page in (*(TOP / "packaging/man").iterdir(), TOP / "python/man/arena.1"):
        said = run("man", "--warnings", "-E", "UTF-8", "-l", "-Tutf8", page, LC_ALL="C.UTF-8", MANPAGER="cat")
        assert len(said.splitlines()) > 20 and "warning" not in said, f"{page}: {said}"


def manuals_have_the_words_of_the_docs(room: Room) -> None:
    """A manual page explains the words that the program has by its page in docs, and no others."""
    for page, document in WORDS.items():
        text = (TOP / "packaging/man" / page).read_text()
        explained = re.findall(r'^\.BI (\\-\\-[a-z\\-]+) ', text, re.M)
        words = re.findall(r"^\| `(--[a-z-]+) ", (TOP / document).read_text(), re.M)
        assert [it.replace("\\", "") for it in explained] == words, (page, explained, words)


def bash_reads_its_completion(room: Room) -> None:
    """bash reads the completion."""
    need("bash")
    said = run("bash", "-c", f"source {TOP}/python/completion/arena && complete -p arena")
    assert said == "complete -F _arena arena\n", said


def zsh_reads_its_completion(room: Room) -> None:
    """zsh reads the completion."""
    need("zsh")
    assert run("zsh", "-n", TOP / "python/completion/_arena") == ""


def scripts_are_sound(room: Room) -> None:
    """shellcheck has nothing to say of the scripts."""
    need("shellcheck")
    run("shellcheck", *sorted((TOP / "packaging/debian").glob("p*")), *sorted((TOP / "examples").rglob("*.sh")))


CHECKS = (manuals_are_read, manuals_have_the_words_of_the_docs, bash_reads_its_completion, zsh_reads_its_completion,
          scripts_are_sound)
