"""`arena pages`: the manual page and the completions, made from the table of the words."""
import argparse
from collections.abc import Iterator, Sequence

from arena.command.call import Call
from arena.command.words import COMMON, STATUS_TEXTS, Command, Completes, Status, Word, positional


def _escaped(text: str) -> str:
    """A text as troff takes it."""
    text = text.replace("\\", "\\e").replace("-", "\\-")
    return "\\&" + text if text.startswith((".", "'")) else text


def _words_of(words: Sequence[Word]) -> Iterator[str]:
    for word in words:
        yield ".TP"
        yield f".B {_escaped(word.shown)}"
        yield _escaped(word.help)


def flat(commands: Sequence[Command]) -> list[Command]:
    """The commands, with those of families in their place."""
    return [it for command in commands for it in command.family]


def manual(commands: Sequence[Command], about: str) -> str:
    """The manual page, in troff."""
    lines = [".TH ARENA 1", ".SH NAME", "arena \\- run jobs on arena\\-server and see what happened to them",
             ".SH SYNOPSIS",
             ".B arena", "[OPTIONS] COMMAND [WORDS]", ".SH DESCRIPTION", _escaped(about), ".SH OPTIONS",
             "They may stand before the command or after it.", *_words_of(COMMON),
             ".TP", ".B \\-\\-version", "print the version of this command, and end", ".SH COMMANDS"]
    for command in flat(commands):
        words = " ".join(word.shown if not word.is_option else "" for word in command.words).split()
        lines += [f".SS arena {_escaped(' '.join([command.name, *words]))}", _escaped(command.text),
                  *_words_of(command.words),
                  ".PP", "Example:", ".RS", ".nf", _escaped(command.example), ".fi", ".RE"]
    lines.append(".SH EXIT STATUS")
    for status, text in STATUS_TEXTS.items():
        lines += [".TP", f".B {status.value}", _escaped(text)]
    lines += [".SH ENVIRONMENT", ".TP", ".B ARENA_SOCKET", "the server's socket", ".TP", ".B ARENA_TENANT",
              "the tenant's name",
              ".TP", ".B ARENA_RUN", "the run folder of arena\\-host", ".TP", ".B ARENA_QUEUE",
              "the file of the queue, for `queue`", ".TP", ".B ARENA_SCRIPT",
              "the program arena\\-script, for `check` and `check\\-dumps`", ".TP", ".B ARENA_HOST",
              "the program arena\\-host, for `host`", ".TP", ".B NO_COLOR",
              "no colours, if it is set"]
    return "\n".join(lines)


_SUFFIXES = {Completes.JOB_FILE: ("job", "jasm", "json"), Completes.DUMP: ("jsonl",), Completes.CONFIG: ("json",)}
_ZSH_ACTIONS = {Completes.FILE: "_files", Completes.FOLDER: "_files -/"}


def _options(words: Sequence[Word]) -> list[str]:
    return [name for word in words if word.is_option for name in word.names]


def _choices(word: Word) -> str:
    """The values among which a word chooses, if it does."""
    return " ".join(map(str, word.more.get("choices", ())))


def _quoted(text: str) -> str:
    """A text as a shell takes it in single quotes."""
    return "'" + text.replace("'", "'\\''") + "'"


# The completion for bash: @NAME@ is filled in. It needs no `extglob`, which shells leave off.
BASH = r"""# bash completion for arena; made by `arena pages bash`.
_arena_files() {
    local cur=$1 suffix
    shift
    compopt -o filenames
    mapfile -t COMPREPLY < <(compgen -d -- "$cur"; for suffix; do compgen -f -X "!*$suffix" -- "$cur"; done)
}
_arena() {
    local cur=${COMP_WORDS[COMP_CWORD]} prev=${COMP_WORDS[COMP_CWORD-1]} command= options= choices= word
    local -a files=()
    COMPREPLY=()
    for word in "${COMP_WORDS[@]:1:COMP_CWORD-1}"; do
        case "$command/$word" in
            @COMMANDS@) command=$word ;;
            @INNER@) command="$command $word" ;;
        esac
    done
    case "$command $prev" in
@TAKES@
    esac
    case $command in
        '') choices='@NAMES@' options='@COMMON@' ;;
@CASES@
    esac
    case $cur in
        -*) mapfile -t COMPREPLY < <(compgen -W "$options -h --help" -- "$cur") ;;
        *) mapfile -t COMPREPLY < <(compgen -W "$choices" -- "$cur")
           if [ ${#files[@]} -gt 0 ]; then _arena_files "$cur" "${files[@]}"; fi ;;
    esac
}
complete -F _arena arena"""


def _filled(text: str, parts: dict[str, str]) -> str:
    """The text with each @NAME@ replaced by its part."""
    for name, part in parts.items():
        text = text.replace(f"@{name}@", part)
    return text


def bash(commands: Sequence[Command]) -> str:
    """The completion for bash."""
    names = [command.name for command in commands]
    takes = [line for command in flat(commands) for line in _bash_takes(command.name.replace(" ", "\\ "), command.words)]
    takes += _bash_takes("*", COMMON)
    inner = [f"{command.name}/{it.name}" for command in commands for it in command.inner]
    cases = [*map(_bash_case, flat(commands)), *(_bash_family(it) for it in commands if it.inner)]
    return _filled(BASH, {
        "COMMANDS": "|".join(f"/{it}" for it in names), "INNER": "|".join(inner), "TAKES": "\n".join(takes),
        "NAMES": " ".join(names), "COMMON": " ".join(_options(COMMON)), "CASES": "\n".join(cases)})


def _bash_family(command: Command) -> str:
    """What follows the name of a family."""
    names = " ".join(it.name for it in command.inner)
    return f"        {command.name}) options='{' '.join(_options(COMMON))}' choices='{names}' ;;"


def _bash_takes(command: str, words: Sequence[Word]) -> Iterator[str]:
    """A line for each kind of value that options of a command take."""
    kinds: dict[str, list[str]] = {}
    for word in words:
        if word.is_option and word.more.get("action") != "store_true":
            kinds.setdefault(_bash_value(word), []).extend(rf"{command}\ {name}" for name in word.names)
    yield from (f"        {'|'.join(names)}) {offers}return ;;" for offers, names in kinds.items())


def _bash_value(word: Word) -> str:
    """What offers the values of an option."""
    if word.completes is not Completes.NOTHING:
        return f'_arena_files "$cur" {_bash_suffixes(word)}; '
    return f"""mapfile -t COMPREPLY < <(compgen -W '{_choices(word)}' -- "$cur"); """ if _choices(word) else ""


def _bash_suffixes(word: Word) -> str:
    """What the names of its files end in; all end in nothing."""
    return " ".join(f".{it}" for it in _SUFFIXES.get(word.completes, ())) or "''"


def _bash_case(command: Command) -> str:
    """The options of a command, and what stands without an option: words to choose from, or files."""
    parts = [f"options='{' '.join(_options((*command.words, *COMMON)))}'"]
    for word in command.words:
        if not word.is_option and word.completes is not Completes.NOTHING:
            parts.append(f"files=({_bash_suffixes(word)})")
        elif not word.is_option and _choices(word):
            parts.append(f"choices='{_choices(word)}'")
    name = f"'{command.name}'" if " " in command.name else command.name
    return f"        {name}) {' '.join(parts)} ;;"


# The completion for zsh: @NAME@ is filled in.
ZSH = r"""#compdef arena
# zsh completion for arena; made by `arena pages zsh`.
_arena() {
    local curcontext=$curcontext state line
    local -a commands common
    typeset -A opt_args
    commands=(
@COMMANDS@
    )
    common=(
@COMMON@
    )
    _arguments -C $common '1:command:->command' '*::words:->words'
    case $state in
        command) _describe command commands ;;
        words) case $words[1] in
@CASES@
        esac ;;
    esac
}
if [[ $funcstack[1] == _arena ]]; then _arena "$@"; else compdef _arena arena; fi"""


def _zsh_quoted(text: str) -> str:
    """A text as it stands between single quotes."""
    return text.replace("'", "'\\''")


def zsh(commands: Sequence[Command]) -> str:
    """The completion for zsh."""
    names = "\n".join(f"        {_quoted(f'{command.name}:{command.summary}')}" for command in commands)
    common = [*map(_zsh_word, COMMON), "'(- *)'{-h,--help}'[show the words]'"]
    return _filled(ZSH, {"COMMANDS": names, "COMMON": "\n".join(f"        {it}" for it in common),
                         "CASES": "\n".join(map(_zsh_case, commands))})


def _zsh_case(command: Command) -> str:
    """What a command takes, as `_arguments` reads it."""
    if command.inner:
        names = " ".join(it.name for it in command.inner)
        cases = "\n".join("        " + _zsh_case(it).replace("\n", "\n        ") for it in command.inner)
        return (f"            {command.name}) state=\n                _arguments -C $common '1:command:({names})' "
                "'*::words:->inner'\n                if [[ $state == inner ]]; then case $words[1] in\n"
                f"{cases}\n                esac; fi ;;")
    words = "".join(f" \\\n                {_zsh_word(word)}" for word in command.words)
    return f"            {command.name}) _arguments $common{words} ;;"


def _zsh_word(word: Word) -> str:
    """A word, as `_arguments` reads it."""
    if not word.is_option:
        many = "*" if word.more.get("nargs") in ("*", "+", argparse.REMAINDER) else ":" if word.more.get("nargs") == "?" else ""
        return _quoted(f"{many}:{_zsh_text(word.help)}:{_zsh_values(word)}")
    text = word.help.replace("[", r"\[").replace("]", r"\]")
    about = _quoted(f"[{text}]" + "".join(_zsh_takes(word)))
    if word.more.get("action") == "append":
        names = "'*'" + _zsh_names(word)
    else:
        names = (f"'({' '.join(word.names)})'" if len(word.names) > 1 else "") + _zsh_names(word)
    return names + about


def _zsh_names(word: Word) -> str:
    """The names of an option; braces if there are several."""
    return word.names[0] if len(word.names) == 1 else "{" + ",".join(word.names) + "}"


def _zsh_takes(word: Word) -> Iterator[str]:
    """The values that an option takes: all but the first may be left out."""
    if word.more.get("action") == "store_true":
        return
    shown = word.more.get("metavar") or word.names[-1].lstrip("-")
    for at, name in enumerate(shown if isinstance(shown, tuple) else (shown,)):
        yield f"{':' if at else ''}:{name}:{_zsh_values(word)}"


def _zsh_values(word: Word) -> str:
    """What a shell offers as a value of a word."""
    suffixes = _SUFFIXES.get(word.completes)
    if suffixes:
        return f'_files -g "*.{suffixes[0] if len(suffixes) == 1 else "(" + "|".join(suffixes) + ")"}"'
    return _ZSH_ACTIONS.get(word.completes) or (f"({_choices(word)})" if _choices(word) else " ")


def _zsh_text(text: str) -> str:
    """A text in which a colon ends nothing."""
    return text.replace("\\", "\\\\").replace(":", "\\:")


def pages(call: Call) -> int:
    """Prints a page."""
    from arena.command import ABOUT, all_commands
    commands, kind = all_commands(), call.words.PAGE
    print(manual(commands, ABOUT) if kind == "man" else bash(commands) if kind == "bash" else zsh(commands))
    return Status.DONE


COMMANDS = (
    Command("pages", "print the manual page, or the completion for bash or zsh",
            "Prints the manual page in troff, or the completion for bash or zsh. They stand in the folders python/man "
            "and python/completion.", "arena pages man > python/man/arena.1", pages,
            (positional("PAGE", "man, bash or zsh", choices=("man", "bash", "zsh"), metavar="PAGE"),)),
)
