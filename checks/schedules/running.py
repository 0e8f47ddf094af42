"""Runs of a built program under the library, and what they told."""
import json
import os
import pathlib
import signal
import subprocess
import tempfile
from dataclasses import dataclass, field

from drawing import Kill, Scenario, draw_scenario
from host_drawing import draw_host, reminder
from shared import outcomes

HERE = pathlib.Path(__file__).parent
SECONDS = 120
"""How long a run may take, by the clock on the wall: one that blocks where the library does not see it ends then."""

CHECKED = "detect_leaks=0:detect_stack_use_after_return=0:quarantine_size_mb=1"
"""How a build without proofs checks its memory: no more than takes little time."""


@dataclass(frozen=True)
class Saw:
    """Something that a client saw, and at which step."""

    step: int
    what: str


KILLED, OWN_END = "a kill", "itself"
"""How a run ends, by the library, if nothing is wrong."""


@dataclass
class Run:
    """What came of a run: how it ended by the library, by the program, and for each client."""

    end: str = "without a word of the library"
    steps: int = 0
    hash: str = ""
    dice: str = ""
    """The dice at the end, and the clock, in nanoseconds: the next process of the schedule goes on with both."""
    clock: str = "0"
    waiting: list[str] = field(default_factory=list)
    clients: list[list[Saw]] = field(default_factory=list)
    status: int = 0
    lines: list[str] = field(default_factory=list)
    fault: str = ""
    dumps: dict[str, str] = field(default_factory=dict)
    is_path_there: bool = False
    kept: dict[str, list[dict]] = field(default_factory=dict)
    """The outcomes that the folder of a host has in the end, by tenant."""


@dataclass(frozen=True)
class Part:
    """A process of a schedule: what was drawn for it, and what came of it."""

    scenario: Scenario
    run: Run


def build(folder: pathlib.Path) -> pathlib.Path:
    """The library, built into a folder."""
    made = folder / "schedule.so"
    sources = [HERE / name for name in ("schedule.c", "calls.c", "clients.c", "stops.c")]
    subprocess.run(["cc", "-shared", "-fPIC", "-O2", "-o", made, *sources], check=True)
    return made


STOPPED = ("tenant_lock", "worker_main", "server_doors", "call_queues", "nested_wait", "socket_server", "host_records", "host_terms", "host_sessions", "host_keeping", "host_filing")
"""The crates whose functions are points, where the program says where they begin."""


def find_stops(program: pathlib.Path, file: pathlib.Path) -> None:
    """Writes the addresses at which functions of these crates begin, by the names that the program has."""
    try:
        names = subprocess.run(["nm", program], capture_output=True, text=True, errors="replace").stdout
    except FileNotFoundError:
        names = ""
    parts = (line.split(maxsplit=2) for line in names.splitlines())
    file.write_text("".join(f"{it[0]}\n" for it in parts if len(it) == 3 and it[1] in "tT" and it[2].split("::")[0] in STOPPED))


def read_report(text: str, run: Run) -> None:
    """Takes what the library wrote."""
    for line in text.splitlines():
        word, _, rest = line.partition(" ")
        if word == "end":
            run.end = rest
        elif word == "steps":
            run.steps = int(rest)
        elif word == "hash":
            run.hash = rest
        elif word == "dice":
            run.dice = rest
        elif word == "clock":
            run.clock = rest
        elif word == "thread":
            run.waiting.append(rest)
        elif word == "client":
            run.clients.append([])
        else:
            run.clients[-1].append(Saw(int(word), rest))


def write_clients(scenario: Scenario, path: pathlib.Path) -> None:
    """Writes what the clients do, for the library."""
    path.write_text("".join("client\n" + "".join(it.acts) for it in scenario.players))


@dataclass(frozen=True)
class Place:
    """Where a run is made: by which library, on which processor, and where its choices are told, if they are."""

    library: pathlib.Path
    stops: pathlib.Path
    processor: int
    trace: pathlib.Path | None = None


def room_of(scenario: Scenario, before: Run | None, place: Place) -> dict[str, str]:
    """The environment of a run, which goes on with the dice and the clock of the one before. The library finds its files in the run's
    own folder."""
    told = {"TRACE": str(place.trace)} if place.trace else {}
    kill = scenario.kill or Kill()
    dice, clock = (before.dice, before.clock) if before else (str(scenario.seed), "0")
    return {**os.environ, "SEED": dice, "CLOCK": clock, "KILL_STEP": str(kill.step), "KILL_REPLY": str(kill.replies), "OUT": "out",
            "CLIENTS": "clients", "PROCESSOR": str(place.processor), "LD_PRELOAD": str(place.library), "STOPS": str(place.stops),
            "ASAN_OPTIONS": CHECKED, **told}


def run_words(words: list[str], scenario: Scenario, folder: pathlib.Path, place: Place, before: Run | None = None) -> Run:
    """Runs a program with the clients of a scenario. What it prints goes to files, which never make it wait."""
    write_clients(scenario, folder / "clients")
    (folder / "config").write_text(json.dumps(scenario.config))
    (folder / "out").unlink(missing_ok=True)
    run = Run()
    with open(folder / "printed", "w") as printed, open(folder / "said", "w") as said:
        try:
            room = room_of(scenario, before, place)
            done = subprocess.run(words, cwd=folder, env=room, stdout=printed, stderr=said, timeout=SECONDS)
            run.status = done.returncode
        except subprocess.TimeoutExpired:
            run.end = f"nothing, within {SECONDS} seconds: a thread blocks where the library does not see it"
    run.lines, run.fault = (folder / "printed").read_text().splitlines(), (folder / "said").read_text()
    if (folder / "out").exists():
        read_report((folder / "out").read_text(), run)
    return run


def room() -> str | None:
    """Where the folders of runs are: in memory, if that is there."""
    return "/dev/shm" if os.path.isdir("/dev/shm") else None


def run_server(program: pathlib.Path, seed: int, place: Place) -> list[Part]:
    """Runs a server with the clients and the schedule of a seed."""
    with tempfile.TemporaryDirectory(dir=room()) as name:
        folder = pathlib.Path(name)
        scenario = draw_scenario(seed, "s")
        (folder / "dumps").mkdir()
        words = [str(program), "--config", "config", "--socket", "s", "--connections", str(len(scenario.players)), "--dump", "dumps"]
        run = run_words(words, scenario, folder, place)
        run.is_path_there = (folder / "s").exists()
        run.dumps = {it.stem: it.read_text() for it in (folder / "dumps").iterdir()}
    return [Part(scenario, run)]


def replies_of(seen: list[Saw]) -> list[dict]:
    """The replies that a client got."""
    return [json.loads(it.what[2:]) for it in seen if it.what.startswith("< ")]


def acknowledged(parts: list[Part], tenant: str) -> list[int]:
    """The jobs of a tenant that clients were told of."""
    players = [it for part in parts for it in zip(part.scenario.players, part.run.clients) if it[0].tenant == tenant]
    asked = [it for player, seen in players for it in zip(player.asks, replies_of(seen))]
    return [reply["job"] for ask, reply in asked if ask.op in ("submit", "execute") and "job" in reply]


def run_host(program: pathlib.Path, seed: int, place: Place) -> list[Part]:
    """Runs a host with the clients and the schedule of a seed, each of its processes in the folder that those before have left. Some
    clients ask for the jobs that were acknowledged by then."""
    parts: list[Part] = []
    with tempfile.TemporaryDirectory(dir=room()) as name:
        folder = pathlib.Path(name)
        (folder / "run").mkdir()
        for scenario in draw_host(seed, "run"):
            names = [it["name"] for it in scenario.config["tenants"]]
            told = {name: acknowledged(parts, name) for name in names}
            scenario.players[:0] = [reminder("run/socket", name, jobs) for name, jobs in told.items() if jobs]
            words = [str(program), "--config", "config", "--run", "run", *scenario.words]
            run = run_words(words, scenario, folder, place, parts[-1].run if parts else None)
            run.is_path_there = (folder / "run/socket").exists()
            run.dumps = {it.stem: it.read_text() for it in (folder / "run").glob("dumps/*.jsonl")}
            parts.append(Part(scenario, run))
            if run.end not in (KILLED, OWN_END) or run.status not in (0, -signal.SIGKILL):
                break
        run.kept = {name: outcomes(folder / "run", name) for name in names}
    return parts
