"""The page that shows a host's status. It needs nothing from elsewhere, and puts the status of now into itself."""
import base64
import hashlib
import os
from html import escape

from arena.host.report import Section


def _file(name: str) -> str:
    with open(os.path.join(os.path.dirname(__file__), name), encoding="utf-8") as it:
        return it.read()


PAGE, STYLE, SCRIPT = _file("page.html"), _file("page.css"), _file("page.js")


def _sum(text: str) -> str:
    """The checksum of a style or script, by which a browser knows that it is ours."""
    return "'sha256-" + base64.b64encode(hashlib.sha256(text.encode()).digest()).decode() + "'"


POLICY = (f"default-src 'none'; connect-src 'self'; script-src {_sum(SCRIPT)}; style-src {_sum(STYLE)}; "
          "base-uri 'none'; form-action 'none'; frame-ancestors 'none'")
"""What the page may load and run, as the header Content-Security-Policy."""


def page(inner: str) -> str:
    """The page around what `shown` or `said` made."""
    text = PAGE
    for name, part in (("STYLE", STYLE), ("SCRIPT", SCRIPT), ("STATUS", inner)):
        text = text.replace(f"@{name}@", part)
    return text


def said(fault: str) -> str:
    """The HTML of a text that says why there is no status of now."""
    return f'<p class="fault">{escape(fault)}</p>'


def shown(sections: list[Section]) -> str:
    """The HTML of a status."""
    return "\n".join(map(_section, sections))


def _section(section: Section) -> str:
    notes = "".join(f"<p>{escape(note)}</p>" for note in section.notes)
    return f"<h2>{escape(section.title)}</h2>{notes}{_table(section) if section.rows else ''}"


def _table(section: Section) -> str:
    head = _row("th", section, list(section.head))
    return f"<table>{head}{''.join(_row('td', section, row) for row in section.rows)}</table>"


def _row(tag: str, section: Section, cells: list[object]) -> str:
    texts = (f'<{tag} class="{"left" if at in section.left else "right"}">{escape(str(cell))}</{tag}>'
             for at, cell in enumerate(cells))
    return f"<tr>{''.join(texts)}</tr>"
