"""What is drawn of a history: pictures whose texts have room, pages that hold every row, traces that nest."""
import collections
import html.parser
import json
import os
import re
import xml.etree.ElementTree as tree
from collections.abc import Sequence

from arena.trace import replay
from arena.trace.axis import Axis
from arena.trace.chrome import chrome
from arena.trace.dump import parse_dump
from arena.trace.html import MOST_BYTES, page
from arena.trace.report import to_value
from arena.trace.stats import statistics_of
from arena.trace.svg import svg
from arena.trace.timeline import Choice, Timeline, timeline_of
from arena.trace.waiting import Waiting, levels_of

DATA = os.path.join(os.path.dirname(os.path.abspath(__file__)), "data")
SPACE = "{http://www.w3.org/2000/svg}"
# How wide a character of a proportional typeface is on average, by its size. Only an overlap of more than a pixel
# counts.
CHARACTER = 0.58


def timeline(lines: Sequence[str], **choice: object) -> Timeline:
    """The timeline of a dump's lines."""
    dump = parse_dump(lines)
    return timeline_of(replay(dump), dump.tenant, Choice(**choice))


def is_well_drawn(lines: Sequence[str]) -> None:
    """Draws a history on each axis, in whole and in part."""
    entries = len(lines) - 1
    for axis in Axis:
        for choice in ({}, {"first": 1 + entries // 3, "last": 1 + 2 * entries // 3}, {"job": 1}):
            shown = timeline(lines, axis=axis, **choice)
            picture_has_room(svg(shown))
            page_is_whole(page(shown), shown)
            trace_nests(json.loads(chrome(shown)), shown)


class Box:
    """A rectangle, of a text or of a bar."""

    def __init__(self, left, top, right, bottom, text=""):
        self.left, self.top, self.right, self.bottom, self.text = left, top, right, bottom, text

    def overlaps(self, other):
        """Whether more than a pixel of it is on the other."""
        return (self.left < other.right - 1 and other.left < self.right - 1
                and self.top < other.bottom - 1 and other.top < self.bottom - 1)


def box_of(text):
    """The room that a text of a picture takes."""
    size, x, y = (float(text.get(name)) for name in ("font-size", "x", "y"))
    wide = CHARACTER * size * len(text.text or "")
    left = x - {"end": wide, "middle": wide / 2}.get(text.get("text-anchor"), 0)
    return Box(left, y - 0.75 * size, left + wide, y + 0.1 * size, text.text)


def picture_has_room(picture: str) -> None:
    """A picture must be XML in which each text lies within the page, and on no other text; one in a bar lies within
    the bar."""
    root = tree.fromstring(picture)
    width, height = float(root.get("width")), float(root.get("height"))
    texts = [box_of(it) for it in root.iter(f"{SPACE}text") if it.text]
    for at, it in enumerate(texts):
        assert 0 <= it.left and it.right <= width + 1 and 0 <= it.top and it.bottom <= height, (it.text, it.left,
                                                                                                it.right, width)
        for other in texts[at + 1:]:
            assert not it.overlaps(other), (it.text, other.text)
    for group in root.iter(f"{SPACE}g"):
        bars, inner = list(group.iter(f"{SPACE}rect")), list(group.iter(f"{SPACE}text"))
        for it in map(box_of, inner):
            assert bars and it.right <= float(bars[0].get("x")) + float(bars[0].get("width")) + 1, it.text
        for bar in bars:
            assert 0 <= float(bar.get("x")) and float(bar.get("x")) + float(bar.get("width")) <= width


class Tags(html.parser.HTMLParser):
    """Notes whether tags are closed in their order, and the text of the data."""

    VOID = {"meta", "input"}

    def __init__(self):
        super().__init__()
        self.open, self.data = [], ""

    def handle_starttag(self, tag, attrs):
        if tag not in self.VOID:
            self.open.append((tag, dict(attrs).get("id")))

    def handle_endtag(self, tag):
        assert self.open.pop()[0] == tag, tag

    def handle_data(self, data):
        if self.open and self.open[-1] == ("script", "data"):
            self.data += data


def page_is_whole(text: str, shown: Timeline) -> None:
    """A page must be at most 5 MB, closed, without a link to anywhere, and hold each row, by itself or in a block."""
    assert len(text.encode()) <= MOST_BYTES == 5_000_000
    assert not re.search(r"(?:src|href)=|https?:|@[A-Z]+@", text)
    tags = Tags()
    tags.feed(text)
    assert not tags.open
    data = json.loads(tags.data)
    bars, blocks = data["bars"], data["blocks"]
    assert len({len(column) for column in bars.values()}) == 1 and len({len(column) for column in blocks.values()}) == 1
    assert len(bars["row"]) + sum(blocks["rows"]) == len(shown.bars)
    if not blocks["rows"]:
        rows = [sum(bars["row"][: at + 1]) for at in range(len(bars["row"]))]
        assert rows == [bar.row.number for bar in shown.bars]


def trace_nests(trace, shown):
    """Slices of a thread must lie within each other or apart; each flow has its two ends; the counters end at zero."""
    events = trace["traceEvents"]
    for tid in {event["tid"] for event in events if event["ph"] == "X"}:
        slices = [event for event in events if event["ph"] == "X" and event["tid"] == tid]
        ends = []
        for it in sorted(slices, key=lambda event: (event["ts"], -event["dur"])):
            while ends and ends[-1] <= it["ts"]:
                ends.pop()
            assert not ends or it["ts"] + it["dur"] <= ends[-1], it
            ends.append(it["ts"] + it["dur"])
    assert sum(event.get("cat") not in (None, "run", "taken") for event in events) == len(shown.bars)
    flows = collections.Counter((event["ph"], event["id"]) for event in events if event["ph"] in "sf")
    assert all(flows["s", number] == flows["f", number] == 1 for _, number in flows)
    counts = [event for event in events if event["ph"] == "C"]
    assert not counts or counts[-1]["args"] == {"live": 0, "waiting": 0}, counts[-1]
    assert all(value >= 0 for event in counts for value in event["args"].values())
    assert [event["ts"] for event in counts] == sorted({event["ts"] for event in counts})


def levels_keep_the_greatest() -> None:
    """How many rows wait: of changes that are too near to be seen the greatest number stays, for as long as it is seen."""
    def levels(spans, least):
        return [(it.at, it.rows) for it in levels_of([Waiting(begin, end, 1, 1, 0) for begin, end in spans], least)]

    assert levels([(0, 10), (5, 6)], 0) == [(0, 1), (5, 2), (6, 1), (10, 0)]
    assert levels([(0, 100), (5, 6), (5, 7)], 3) == [(0, 1), (5, 3), (8, 1), (100, 0)]
    assert levels([(0, 1)], 5) == [(0, 1), (5, 0)]
    assert levels([], 5) == []


# Golden files.

GOLDEN = {"plain_waiter": {}, "isolated_waiter": {}, "four_workers": {"axis": Axis.CLOCK}}


def golden(name: str) -> dict[str, str]:
    """What is drawn and said of a small dump, by the name of its file."""
    with open(os.path.join(DATA, f"{name}.jsonl")) as it:
        lines = it.readlines()
    shown, dump = timeline(lines, **GOLDEN[name]), parse_dump(lines)
    statistics = to_value(statistics_of(replay(dump), dump.tenant))
    return {f"{name}.svg": svg(shown), f"{name}.trace.json": chrome(shown),
            f"{name}.stat.json": json.dumps(statistics, indent=1) + "\n"}


def write_golden() -> None:
    """Writes the golden files."""
    for name in GOLDEN:
        for file, text in golden(name).items():
            with open(os.path.join(DATA, file), "w") as it:
                it.write(text)
            print(os.path.join(DATA, file))


def golden_files_are_drawn() -> int:
    """Compares with the golden files; how many there are."""
    count = 0
    for name in GOLDEN:
        with open(os.path.join(DATA, f"{name}.jsonl")) as it:
            is_well_drawn(it.readlines())
        for file, text in golden(name).items():
            with open(os.path.join(DATA, file)) as it:
                assert it.read() == text, f"{file} is another; look at it, and write it by `trace.py golden`"
            count += 1
    return count
