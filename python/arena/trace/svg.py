"""Draws a timeline as SVG: a band for each slot, its rows by height, requests above, the axis below."""
import bisect
import math
from collections.abc import Iterator
from dataclasses import dataclass, field
from html import escape

from arena.trace.merge import Merged, merge, stretches
from arena.trace.model import there
from arena.trace.timeline import Bar, Mark, Timeline
from arena.trace.waiting import Waiting, levels_of, waits_of

PALETTE = ("#3b6ea8", "#d9822b", "#2f8f5b", "#b04a8f", "#7a6fbe", "#1f9aa8", "#a3762c", "#c0504d", "#6b8e23", "#5b6b7f")
RED, GREY, PALE_GREY, MIXED = "#c81e1e", "#555b66", "#f1f3f5", "#8a919c"
LEFT, RIGHT, BAR, GAP = 104, 28, 17, 16
MOST_SHAPES, MOST_ARROWS, LEGEND_JOBS = 20_000, 120, 24
# Rows that wait are drawn one by one in up to so many lanes; else how many there are is, so high.
WAITING_LANES, WAITING_HIGH = 4, 34


def width_of(text: str, size: float) -> float:
    """An upper bound of how wide a text is, in the widest usual sans-serif."""
    return 0.66 * size * len(text)


def tick_step(length: float, room: float) -> int:
    """The distance of ticks: 1, 2 or 5 by a power of ten, so that about one stands in each 90 pixels."""
    wanted = max(length * 90 / room, 1)
    power = 10 ** math.floor(math.log10(wanted))
    return int(next(step * power for step in (1, 2, 5, 10) if step * power >= wanted))


@dataclass
class Drawing:
    """A timeline, where its parts lie on the page, and the lines of SVG so far. Lengths are in pixels."""

    timeline: Timeline
    width: int
    merged: Merged = field(default_factory=Merged)
    lines: list[str] = field(default_factory=list)
    bases: list[float] = field(default_factory=list)
    bar: float = BAR
    top: float = 0

    @property
    def room(self) -> float:
        """How wide the axis is."""
        return self.width - LEFT - RIGHT

    def x(self, at: float) -> float:
        """Where a place of the axis lies."""
        it = self.timeline
        return LEFT + min(max(at - it.begin, 0), it.end - it.begin) * self.room / (it.end - it.begin)

    def y(self, slot: int, height: int) -> float:
        """The upper edge of a height of a slot."""
        return self.bases[slot] - height * self.bar

    def colour(self, bar: Bar) -> str:
        """By its job; by its procedure, if one job is shown."""
        return PALETTE[(bar.row.proc if self.timeline.choice.job is not None
                        else bar.row.job.number - 1) % len(PALETTE)]

    def colour_of_job(self, job: int | None) -> str:
        """Of something of a job, or of several, that is no bar."""
        if job is None or self.timeline.choice.job is not None:
            return MIXED
        return PALETTE[(job - 1) % len(PALETTE)]

    def text(self, x: float, y: float, text: str, size: float = 11, fill: str = "#222", more: str = "") -> None:
        """Puts a text with its base line there."""
        self.lines.append(f'<text x="{x:.1f}" y="{y:.1f}" font-size="{size:g}" '
                          f'fill="{fill}"{more}>{escape(text)}</text>')

    def rect(self, x: float, y: float, width: float, height: float, more: str) -> None:
        """Puts a rectangle there."""
        self.lines.append(f'<rect x="{x:.2f}" y="{y:.1f}" width="{max(width, 0.4):.2f}" height="{height:.1f}" {more}/>')


def svg(timeline: Timeline, width: int = 1400) -> str:
    """The picture. What is too small to be seen is merged, and the picture says how much."""
    it = Drawing(timeline, width)
    _merge(it)
    total = sum(timeline.heights)
    it.bar = min(BAR, max(3.0, 900 / total))
    head = _head(it)
    it.top = head + 52
    y = _waiting(it, it.top) + GAP
    for height in timeline.heights:
        y += height * it.bar
        it.bases.append(y)
        y += GAP
    bottom = y - GAP + 6
    _axis(it, bottom)
    _bands(it)
    _rows(it)
    _arrows(it)
    _marks(it, head)
    _note(it, bottom + 46)
    tall = bottom + 58
    start = (f'<svg xmlns="http://www.w3.org/2000/svg" width="{width}" height="{tall:.0f}" '
             f'viewBox="0 0 {width} {tall:.0f}" font-family="DejaVu Sans, Verdana, sans-serif" role="img">'
             f'<title>{escape(timeline.title)}</title>'
             '<defs><marker id="taken" markerWidth="7" markerHeight="7" refX="6" refY="3.5" orient="auto">'
             f'<path d="M0,0.5 L7,3.5 L0,6.5 z" fill="{GREY}"/></marker></defs>'
             '<rect width="100%" height="100%" fill="white"/>')
    return "\n".join([start, *it.lines, "</svg>"]) + "\n"


def _merge(it: Drawing) -> None:
    """Merges what is less than a pixel, or more if there would be too many shapes."""
    timeline = it.timeline
    pixel = (timeline.end - timeline.begin) / it.room
    least = 1.0
    while True:
        it.merged = merge(timeline.bars, least * pixel)
        shapes = len(it.merged.blocks) + sum(1.0 + min(len(bar.runs), (bar.until - bar.begin) / pixel / least)
                                             for bar in it.merged.bars)
        if shapes <= MOST_SHAPES:
            return
        least *= 2


def _head(it: Drawing) -> float:
    """Title and legend. Returns where they end."""
    timeline = it.timeline
    it.text(LEFT, 26, timeline.title, 16, more=' font-weight="bold"')
    it.text(LEFT, 44, timeline.subtitle, 11, GREY)
    x, y = float(LEFT), 64.0
    for colour, text in _legend(it):
        wide = 16 + width_of(text, 11) + 14
        if x + wide > it.width - RIGHT and x > LEFT:
            x, y = float(LEFT), y + 18
        it.rect(x, y - 9, 11, 11, f'fill="{colour}"' if colour else 'fill="none" stroke="none"')
        it.text(x + 16, y, text)
        x += wide
    return _key(it, y + 20)


def _legend(it: Drawing) -> Iterator[tuple[str, str]]:
    """Colours with what they mean."""
    timeline = it.timeline
    if timeline.choice.job is not None:
        names = {bar.row.proc: bar.name for bar in timeline.bars}
        for proc in sorted(names):
            yield PALETTE[proc % len(PALETTE)], f"procedure {names[proc]}"
        return
    jobs = sorted(timeline.jobs)
    for number in jobs[:LEGEND_JOBS]:
        job = timeline.jobs[number]
        yield PALETTE[(number - 1) % len(PALETTE)], f"job {number}: {job.result}"
    if len(jobs) > LEGEND_JOBS:
        yield "", f"and {len(jobs) - LEGEND_JOBS:,} more jobs; colours repeat"


def _key(it: Drawing, y: float) -> float:
    """What the shapes mean. Returns where this ends."""
    x, blue = float(LEFT), PALETTE[0]
    for text, shape in (("executing", f'fill="{blue}"'), ("on the stack", f'fill="{blue}" fill-opacity="0.25"'),
                        ("a region", f'fill="{blue}" fill-opacity="0.12" stroke="{blue}" stroke-dasharray="4 2"'),
                        ("ended by a fault", f'fill="{blue}" fill-opacity="0.25" stroke="{RED}" stroke-width="1.6"')):
        it.rect(x, y - 9, 22, 11, shape)
        it.text(x + 28, y, text, 11, GREY)
        x += 28 + width_of(text, 11) + 16
    it.lines.append(f'<line x1="{x:.1f}" y1="{y - 4:.1f}" x2="{x + 24:.1f}" y2="{y - 4:.1f}" stroke="{GREY}" '
                    f'marker-end="url(#taken)"/>')
    it.text(x + 30, y, "made by one slot, taken by another", 11, GREY)
    return y + 8


def _bands(it: Drawing) -> None:
    for slot, base in enumerate(it.bases):
        high = it.timeline.heights[slot] * it.bar
        it.lines.append(f'<rect x="{LEFT}" y="{base - high:.1f}" width="{it.room:.1f}" height="{high:.1f}" '
                        f'fill="{PALE_GREY}" fill-opacity="0.7"/>')
        is_reserved = slot < it.timeline.tenant.reserved
        it.text(LEFT - 10, base - 4, f"slot {slot}{' (res.)' if is_reserved else ''}", 11, more=' text-anchor="end"')


def _axis(it: Drawing, bottom: float) -> None:
    timeline = it.timeline
    step = tick_step(timeline.end - timeline.begin, it.room)
    for at in range(-(-timeline.begin // step) * step, timeline.end + 1, step):
        x = it.x(at)
        it.lines.append(f'<line x1="{x:.1f}" y1="{it.top - 6:.1f}" x2="{x:.1f}" y2="{bottom:.1f}" stroke="#d0d4da" '
                        f'stroke-width="0.7"/>')
        it.text(x, bottom + 14, f"{at:,}", 10, GREY, ' text-anchor="middle"')
    it.text(LEFT, bottom + 30, timeline.choice.axis.title, 11, GREY)


def _rows(it: Drawing) -> None:
    pixel = (it.timeline.end - it.timeline.begin) / it.room
    for block in it.merged.blocks:
        colour = it.colour_of_job(block.job)
        x, y = it.x(block.begin), it.y(block.slot, block.height)
        it.lines.append(f"<g><title>{escape(block.words())}</title>")
        it.rect(x, y + 1, it.x(block.end) - x, it.bar - 2, f'fill="{colour}" fill-opacity="0.7"')
        it.lines.append("</g>")
    for bar in it.merged.bars:
        it.lines.append(f"<g><title>{escape(bar.words())}</title>")
        _row(it, bar, pixel)
        it.lines.append("</g>")


def _row(it: Drawing, bar: Bar, pixel: float) -> None:
    colour, x, y = it.colour(bar), it.x(bar.begin), it.y(bar.slot, bar.height)
    wide = it.x(bar.until) - x
    edge = RED if bar.is_faulted else colour
    dashes = ' stroke-dasharray="4 2"' if bar.is_region else ""
    it.rect(x, y + 0.5, wide, it.bar - 1.5, f'fill="{colour}" fill-opacity="{0.12 if bar.is_region else 0.25}" '
            f'stroke="{edge}" '
            f'stroke-width="{1.4 if bar.is_region or bar.is_faulted else 0.5}"{dashes}')
    for part in stretches(bar, pixel):
        left = it.x(part.begin)
        it.rect(left, y + 2.5, it.x(part.end) - left, it.bar - 5.5, f'fill="{colour}"')
    if it.bar < 12:
        return
    shown = LEFT if x < LEFT else x
    for text in (f"{bar.name} · row {bar.row.number}", f"{bar.name} {bar.row.number}", f"{bar.row.number}"):
        if width_of(text, 9) + 8 <= wide:
            it.text(shown + 4, y + it.bar - 5, text, 9, "#111", ' stroke="white" stroke-width="2.4" '
                    'stroke-linejoin="round" '
                    'paint-order="stroke"')
            return


def _arrows(it: Drawing) -> None:
    taken = [bar for bar in it.merged.bars if bar.row.is_taken and bar.maker is not None
             and bar.made_at >= it.timeline.begin]
    opacity = 0.9 if len(taken) <= 30 else 0.45
    for bar in taken[:: max(1, -(-len(taken) // MOST_ARROWS))]:
        x, y = it.x(bar.made_at), it.y(there(bar.maker).slot, there(bar.maker).height) + it.bar / 2
        it.lines.append(f'<line x1="{x:.1f}" y1="{y:.1f}" x2="{it.x(bar.begin):.1f}" '
                        f'y2="{it.y(bar.slot, bar.height) + it.bar / 2:.1f}" '
                        f'stroke="{GREY}" stroke-width="0.8" opacity="{opacity}" marker-end="url(#taken)"/>')


def _waiting(it: Drawing, y: float) -> float:
    """Rows that wait, at this height. Returns where they end."""
    waits = waits_of(it.timeline)
    lanes = 1 + max((wait.lane for wait in waits), default=0)
    pixel = (it.timeline.end - it.timeline.begin) / it.room
    few = lanes <= WAITING_LANES and len(waits) <= MOST_SHAPES / 10
    high = lanes * BAR if few else WAITING_HIGH
    it.lines.append(f'<rect x="{LEFT}" y="{y:.1f}" width="{it.room:.1f}" height="{high:.1f}" fill="#fbf7ee"/>')
    it.text(LEFT - 10, y + 12, "waiting", 11, more=' text-anchor="end"')
    if not few:
        _waiting_levels(it, waits, y, pixel)
        return y + high
    for wait in waits:
        if wait.end - wait.begin >= pixel:
            _waiting_row(it, wait, y + wait.lane * BAR)
    return y + high


def _waiting_row(it: Drawing, wait: Waiting, y: float) -> None:
    x, colour = it.x(wait.begin), it.colour_of_job(wait.job)
    wide = it.x(wait.end) - x
    it.lines.append(f"<g><title>row {wait.row} of job {wait.job} waits</title>")
    it.rect(x, y + 2, wide, BAR - 4, f'fill="white" stroke="{colour}" stroke-width="0.9"')
    for text in (f"row {wait.row} waits", f"{wait.row}"):
        if width_of(text, 9) + 8 <= wide:
            it.text(x + 4, y + BAR - 5, text, 9, "#111")
            break
    it.lines.append("</g>")


def _waiting_levels(it: Drawing, waits: list[Waiting], y: float, pixel: float) -> None:
    """How many rows wait, as a line with the area below it."""
    levels = levels_of(waits, pixel)
    most = max(level.rows for level in levels)
    points, last = [f"M{LEFT},{y + WAITING_HIGH:.1f}"], y + WAITING_HIGH
    for level in levels:
        x, height = it.x(level.at), y + WAITING_HIGH - (WAITING_HIGH - 3) * level.rows / most
        points += [f"L{x:.1f},{last:.1f}", f"L{x:.1f},{height:.1f}"]
        last = height
    points.append(f"L{it.x(it.timeline.end):.1f},{last:.1f} L{it.x(it.timeline.end):.1f},{y + WAITING_HIGH:.1f} z")
    it.lines.append(f'<path d="{" ".join(points)}" fill="#e0b45c" fill-opacity="0.6" stroke="#b98a2b" '
                    f'stroke-width="0.6"/>')
    it.text(LEFT - 10, y + 26, f"most {most:,}", 10, GREY, ' text-anchor="end"')


def _marks(it: Drawing, y: float) -> None:
    """Requests in one line, cancellations in the line below it; a text where it has room before the next mark."""
    for is_cancel, base, name in ((False, y + 16, "requests"), (True, y + 36, "cancels")):
        marks = [mark for mark in it.timeline.marks if mark.is_cancel == is_cancel]
        it.text(LEFT - 10, base, name, 11, RED if is_cancel else "#222", ' text-anchor="end"')
        by_pixel: dict[int, list[Mark]] = {}
        for mark in marks:
            by_pixel.setdefault(round(it.x(mark.at)), []).append(mark)
        places = sorted(by_pixel)
        for x in places:
            _mark(it, x, base, by_pixel[x], places, RED if is_cancel else GREY)


def _mark(it: Drawing, x: int, base: float, marks: list[Mark], places: list[int], colour: str) -> None:
    text = marks[0].text if len(marks) == 1 else f"{len(marks)} requests"
    first, last = marks[0].entry, marks[-1].entry
    title = f"entry {first}: {text}" if first == last else f"entries {first} to {last}: {text}"
    it.lines.append(f'<g><title>{escape(title)}</title><line x1="{x}" y1="{base - 10:.1f}" x2="{x}" '
                    f'y2="{base + 3:.1f}" '
                    f'stroke="{colour}" stroke-width="1.4"/></g>')
    next_at = bisect.bisect_right(places, x)
    room = (places[next_at] if next_at < len(places) else it.width - 4) - x
    if width_of(text, 9) + 10 <= room:
        it.text(x + 4, base - 1, text, 9, colour)


def _note(it: Drawing, y: float) -> None:
    """Says what was merged or left out."""
    taken = sum(bar.row.is_taken for bar in it.merged.bars)
    notes = []
    if it.merged.hidden:
        are = "row is" if it.merged.hidden == 1 else "rows are"
        notes.append(f"{it.merged.hidden:,} {are} too short to be drawn alone, and merged; --from and --to show more")
    if taken > MOST_ARROWS:
        notes.append(f"of {taken:,} arrows one in {-(-taken // MOST_ARROWS)} is drawn")
    it.text(LEFT, y, "; ".join(notes), 10, GREY)
