"""What happened in a tenant, from the dump that arena-server wrote of its history.

    from arena.trace import read_dump, replay

    for happening in replay(read_dump("acme.jsonl")):
        print(happening.number, happening.row, happening.cost)

A dump names neither the row that an advance ran nor what it did; a replay finds both. It believes the dump's answers,
and `arena-script check` is there to doubt them. """
from arena.trace.dump import Dump, DumpFault, read_dump
from arena.trace.model import Happening, Job, Kind, Move, Row, State
from arena.trace.replay import Replay, replay

__all__ = ["Dump", "DumpFault", "Happening", "Job", "Kind", "Move", "Replay", "Row", "State", "read_dump", "replay"]
