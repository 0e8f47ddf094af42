"""What the pages set between back quotes, the commands in their blocks of code, and their links."""
import dataclasses
import pathlib
import re
from collections.abc import Iterator

TOP = pathlib.Path(__file__).resolve().parents[2]
PATTERNS = ("README.md", "CONTRIBUTING.md", "docs/*.md", "crates/*/README.md", "checks/README.md", "benches/**/*.md")
SPAN = re.compile(r"(?<!`)(`{1,2})(?!`)(.+?)(?<!`)\1(?!`)")
LINK = re.compile(r"\]\(([^)\s#]+)[^)]*\)")


@dataclasses.dataclass(frozen=True)
class Span:
    """What a page sets apart: a word or some between back quotes, a line of code, or a link."""

    page: str
    line: int
    text: str
    is_code: bool = False  # a line of a block of code
    is_link: bool = False
    is_value: bool = False  # what a type of the crate is seen as


def pages() -> list[str]:
    """Returns the pages, by their paths from the top."""
    return sorted({str(page.relative_to(TOP)) for pattern in PATTERNS for page in TOP.glob(pattern)})


def spans_of(page: str) -> Iterator[Span]:
    """Yields the spans of a page in their order. A block of code is fenced, or indented by four spaces."""
    is_fenced = False
    for number, line in enumerate((TOP / page).read_text().splitlines(), 1):
        if line.lstrip().startswith("```"):
            is_fenced = not is_fenced
        elif is_fenced or line.startswith("    "):
            yield Span(page, number, line.strip(), is_code=True)
        else:
            for found in SPAN.finditer(line):
                text = found.group(2).strip().replace("\\|", "|")
                is_value = page.startswith("crates/") and line[:found.start()].endswith("seen as ")
                yield Span(page, number, text, is_value=is_value)
            for target in LINK.findall(SPAN.sub("", line)):
                yield Span(page, number, target, is_link=True)
