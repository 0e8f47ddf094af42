"""A source's description in Markdown: its comments, what it takes and gives, and how long its procedures are."""
from collections.abc import Iterator, Sequence

from arena.language.compiler import Compiled
from arena.language.examples import examples_of, unit_of
from arena.language.faults import Place
from arena.language.syntax import Function, Inline
from arena.texts import counted, lines_of


def described(text: str, compiled: Compiled, title: str) -> str:
    """The description of a source, and of what the compiler made of it. Raises `SourceFault`."""
    lines, unit = lines_of(text), unit_of(text)
    parts = [f"# {title}", *_introduction(lines)]
    parts.append("No schedule changes its value." if compiled.serial else
                 "The job is not serial: a schedule may change its value.")
    named = [f"- `param {name} = {value}`" for name, value in unit.constants.items() if name in unit.parameters]
    named += [f"- `cell {name} @ {key}`" for name, key in unit.cells.items()]
    parts += ["\n".join(named)] if named else []
    items: list[Function | Inline] = [*unit.functions.values(), *unit.inlines.values()]
    for item in items:
        parts += _function(item, lines, compiled)
    examples = [f"- `{it.text.lstrip('#/ ').removeprefix('test').strip()}`" for it in examples_of(text)]
    parts += ["## Examples", "\n".join(examples)] if examples else []
    return "\n\n".join(parts) + "\n"


def _function(item: Function | Inline, lines: Sequence[str], compiled: Compiled) -> Iterator[str]:
    """What is said of a function."""
    parameters = ", ".join(it.name if it.bits is None else f"{it.name}: u{it.bits}" for it in item.parameters)
    inline = "inline " if isinstance(item, Inline) else ""
    yield f"## `{inline}fn {item.name}({parameters})`"
    yield from _comment_above(lines, item.place)
    if isinstance(item, Function):
        yield f"{counted(compiled.length(item.name), 'instruction')}."


def _introduction(lines: Sequence[str]) -> list[str]:
    """The comment at the top, unless it is that of the first item."""
    count = next((at for at, line in enumerate(lines) if not _is_comment(line)), len(lines))
    return _text(lines[:count]) if count < len(lines) and not lines[count].strip() else []


def _comment_above(lines: Sequence[str], place: Place) -> list[str]:
    """The comment that ends right above a place."""
    start = place.line - 1
    while start and _is_comment(lines[start - 1]):
        start -= 1
    return _text(lines[start:place.line - 1])


def _is_comment(line: str) -> bool:
    return line.lstrip().startswith(("#", "//"))


def _text(comment: Sequence[str]) -> list[str]:
    """The words of a comment, without its examples."""
    words = [line.strip().lstrip("#/").strip() for line in comment]
    kept = " ".join(it for it in words if it and not it.startswith("test "))
    return [kept] if kept else []
