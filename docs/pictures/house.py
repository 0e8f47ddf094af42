#!/usr/bin/env python3
"""Draws the picture of docs/ARCHITECTURE.md from crates.txt: each group of crates with those of its groups that it stands on, the lowest
at the bottom. A group that is reached through another one has no line of its own.

usage: docs/pictures/house.py, at the top of the repository.
"""
import pathlib
import sys
import textwrap
from html import escape

sys.path.append("checks/build")

from crates import Group, read_groups

OUT = pathlib.Path("docs/pictures/house.svg")
WIDTH, GAP, LAYER_GAP, PADDING, LINE = 1180, 22, 46, 10, 15
CHARACTER = 6.35
"""How wide a character of the small font is, in pixels."""


def all_below(groups: dict[str, Group], name: str) -> set[str]:
    """The groups that a group stands on, also through others."""
    return {it for other in groups[name].below for it in (other, *all_below(groups, other))}


def direct(groups: dict[str, Group], name: str) -> list[str]:
    """The groups that a group stands on, and on which none of its others stands."""
    below = groups[name].below
    return [it for it in below if not any(it in all_below(groups, other) for other in below)]


def layer(groups: dict[str, Group], name: str) -> int:
    """How many groups lie below one at most, one above the other."""
    return max((1 + layer(groups, it) for it in groups[name].below), default=0)


class Box:
    """A group as it is drawn."""

    def __init__(self, group: Group, left: float, width: float) -> None:
        self.name, self.left, self.width, self.top = group.name, left, width, 0.0
        room = int((width - 2 * PADDING) / CHARACTER)
        self.what = textwrap.wrap(group.what, room)
        self.crates = textwrap.wrap(" · ".join(group.crates), room, break_long_words=False)
        self.height = 2 * PADDING + LINE * (1 + len(self.what) + len(self.crates)) + 4

    @property
    def middle(self) -> float:
        """The middle of its width."""
        return self.left + self.width / 2

    def lines(self) -> list[str]:
        """The box as SVG."""
        out = [f'<rect x="{self.left:.0f}" y="{self.top:.0f}" width="{self.width:.0f}" height="{self.height:.0f}" rx="5" '
               'fill="#f5f7fa" stroke="#3b6ea8"/>']
        y = self.top + PADDING + 12
        styles = [('font-size="14" font-weight="bold" fill="#222"', [self.name]), ('font-size="11" fill="#555b66"', self.what),
                  ('font-size="11" fill="#222"', self.crates)]
        for style, texts in styles:
            for text in texts:
                out.append(f'<text x="{self.left + PADDING:.0f}" y="{y:.0f}" {style}>{escape(text)}</text>')
                y += LINE
            y += 2
        return out


def placed(groups: dict[str, Group]) -> tuple[dict[str, Box], float]:
    """The boxes with their places, and how high the picture is."""
    layers: dict[int, list[Group]] = {}
    for name, group in groups.items():
        layers.setdefault(layer(groups, name), []).append(group)
    boxes, top = {}, float(GAP)
    for number in sorted(layers, reverse=True):
        row = layers[number]
        shares = [4 + len(group.crates) for group in row]
        room, left, tallest = WIDTH - GAP * (len(row) + 1), float(GAP), 0.0
        for group, share in zip(row, shares, strict=True):
            box = Box(group, left, room * share / sum(shares))
            box.top = top
            boxes[group.name], left, tallest = box, left + box.width + GAP, max(tallest, box.height)
        top += tallest + LAYER_GAP
    return boxes, top - LAYER_GAP + GAP


def picture(groups: dict[str, Group]) -> str:
    """The picture as SVG."""
    boxes, height = placed(groups)
    out = [f'<svg xmlns="http://www.w3.org/2000/svg" width="{WIDTH}" height="{height:.0f}" viewBox="0 0 {WIDTH} {height:.0f}" '
           'font-family="DejaVu Sans, Verdana, sans-serif" role="img"><title>The groups of crates, each above those that it stands on'
           '</title><rect width="100%" height="100%" fill="white"/>']
    for name, box in boxes.items():
        for other in direct(groups, name):
            below = boxes[other]
            out.append(f'<path d="M{box.middle:.0f},{box.top + box.height:.0f} L{below.middle:.0f},{below.top:.0f}" stroke="#9aa4b2" '
                       'fill="none"/>')
    for box in boxes.values():
        out += box.lines()
    return "\n".join([*out, "</svg>", ""])


def main() -> None:
    """Draws it."""
    OUT.write_text(picture({group.name: group for group in read_groups(pathlib.Path("crates.txt").read_text())}))


if __name__ == "__main__":
    main()
