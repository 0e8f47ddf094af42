"""The commands that read a dump: check, stat, timeline."""
import contextlib
import gc
import os
import sys
from collections.abc import Callable, Iterator

from arena.command.call import Call, WordsFault
from arena.command.output import GREEN, Progress
from arena.command.script import SCRIPT, script_of, verdict_of
from arena.command.sources import SourceWrong
from arena.command.words import Command, Completes, Status, option, positional
from arena.trace import Dump, DumpFault, Happening, read_dump, replay
from arena.trace.axis import Axis
from arena.trace.chrome import chrome
from arena.trace.html import page
from arena.trace.report import to_csv, to_text, to_value
from arena.trace.source import MapFault, SourceMap, read_maps
from arena.trace.stats import statistics_of
from arena.trace.svg import svg
from arena.trace.timeline import Choice, Timeline, timeline_of

DUMP = positional("DUMP", "a dump: the file NAME.jsonl that `arena-server --dump` wrote", Completes.DUMP)
MAP = option("--map", help="a source map that `arena build --map` wrote, for names and source lines; may come more "
             "than once",
             action="append", metavar="FILE", completes=Completes.FILE)


def opened(path: str) -> Dump:
    """A dump, or standard input if the path is -."""
    if path == "-":
        from arena.trace.dump import parse_dump
        return parse_dump(sys.stdin.buffer, "<stdin>")
    return read_dump(path)


def replayed(dump: Dump) -> Iterator[Happening]:
    """What happened, with a line that shows how far the reading is."""
    size = os.path.getsize(dump.file) if os.path.exists(dump.file) else sys.maxsize
    progress = Progress(f"reading {dump.file}", size)
    try:
        for happening in replay(dump):
            if happening.number % 4096 == 0:
                progress.at(dump.bytes_read)
            yield happening
    finally:
        progress.end()


@contextlib.contextmanager
def without_collector() -> Iterator[None]:
    """Keeps the collector of cyclic garbage away: it would find nothing, and look at all that is kept again and again."""
    gc.disable()
    try:
        yield
    finally:
        gc.enable()


def maps(call: Call) -> SourceMap:
    """The source maps of the words. Raises SourceWrong."""
    try:
        return read_maps(call.words.map or ())
    except MapFault as fault:
        raise SourceWrong(str(fault)) from None


def check(call: Call) -> int:
    """Lets arena-script check a dump."""
    verdict = verdict_of(script_of(call), call.words.DUMP)
    text = verdict if verdict != "yes" else call.output.paint(verdict, GREEN)
    call.output.say(text, {"file": call.words.DUMP, "verdict": verdict})
    return Status.DONE if verdict == "yes" else Status.DUMP


def stat(call: Call) -> int:
    """Says what a dump shows of jobs and slots."""
    words, dump, source = call.words, opened(call.words.DUMP), maps(call)
    with without_collector():
        statistics = statistics_of(replayed(dump), dump.tenant)
    if words.csv:
        sys.stdout.write(to_csv(statistics, source))
    elif call.output.json:
        call.output.say("", to_value(statistics, source))
    else:
        print(to_text(statistics, source, None if words.all else 20))
    return Status.DONE


def timeline(call: Call) -> int:
    """Draws a dump."""
    words, dump, source = call.words, opened(call.words.DUMP), maps(call)
    first = 1 if words.first is None else words.first
    if first < 1 or words.last is not None and words.last < first:
        last = "" if words.last is None else f" --to {words.last}"
        raise WordsFault(f"--from {first}{last}: entries are counted from 1, and --to is not before --from")
    choice = Choice(Axis(words.axis), words.first, words.last, words.job)
    with without_collector():
        shown = timeline_of(replayed(dump), dump.tenant, choice, source)
        if words.job is not None and not shown.bars:
            raise DumpFault(dump.file, 1, f"no row of job {words.job} was live in these entries")
        if not shown.last:
            raise DumpFault(dump.file, 1, f"the history has fewer entries than --from {first}")
        draw(call, shown)
    return Status.DONE


def draw(call: Call, shown: Timeline) -> None:
    """Writes what is asked for; the SVG to standard output, if no file is named."""
    words = call.words
    if not (words.svg or words.html or words.trace):
        sys.stdout.write(svg(shown, words.width))
    drawn: list[tuple[str | None, Callable[[], str]]] = [
        (words.svg, lambda: svg(shown, words.width)), (words.html, lambda: page(shown)), (words.trace, lambda: chrome(shown))]
    for path, text_of in drawn:
        if path:
            text = text_of()
            with open(path, "w", encoding="utf-8") as it:
                size = it.write(text)
            call.output.say(f"{path}: {size:,} characters", {"characters": size, "file": path})


COMMANDS = (
    Command("check", "check a dump by arena-script",
            "Lets `arena-script check` take every step of a dump again. It prints `yes`; or `no at step k` for the "
            "first entry whose answer is not the tenant's; or `bad line n`.", "arena check dumps/acme.jsonl", check,
            (DUMP, SCRIPT)),
    Command("stat", "statistics of a dump: jobs, slots, history, and what to change",
            "Replays a dump, and says of each job how long it waited and took, what it returned or where it had its "
            "fault, its work, span and parallelism, its fuel, rows and height; of each slot how busy it was; how full "
            "the history is; and what to change. docs/TRACE.md says what each column means.",
            "arena stat dumps/acme.jsonl", stat,
            (DUMP, MAP, option("--csv", help="the jobs as CSV", action="store_true"),
             option("--all", help="all jobs, not only the 20 of most work", action="store_true"))),
    Command("timeline", "draw a dump: SVG, a page to zoom in, or a trace for Perfetto",
            "Draws what the slots did: a band for each slot, the rows on its stack by height, full while they execute; "
            "requests above. Without --svg, --html or --trace it prints the SVG. The page of --html needs nothing else "
            "and zooms; --trace is for Perfetto and chrome://tracing. What is too short to be seen is merged, and the "
            "picture says so.",
            "arena timeline dumps/acme.jsonl --html acme.html --axis clock", timeline,
            (DUMP, option("--svg", help="write a picture to this file", metavar="FILE", completes=Completes.FILE),
             option("--html", help="write a page to this file", metavar="FILE", completes=Completes.FILE),
             option("--trace", help="write trace events to this file", metavar="FILE", completes=Completes.FILE),
             option("--axis", choices=[axis.value for axis in Axis], default="entries", help="what is measured: "
                    "entries of the history; instructions of all slots one after another; or as on a clock, slots side "
                    "by side"),
             option("--from", help="the first entry, from 1", type=int, metavar="ENTRY", dest="first"),
             option("--to", help="the last entry", type=int, metavar="ENTRY", dest="last"),
             option("--job", help="one job alone, its rows coloured by procedure; from its request to its end, unless "
                    "--from or --to is given", type=int, metavar="JOB"), MAP,
             option("--width", help="how wide the SVG is, in pixels", type=int, metavar="N", default=1400))),
)
