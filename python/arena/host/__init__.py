"""What is seen of arena-host from its run folder: its status, the orders that it takes, its dumps (docs/HOST.md)."""
from arena.host.folder import RunFolder
from arena.host.reading import StatusFault, host_runs, parse_status, read_status
from arena.host.status import ClosedTerm, HostStatus, JobsNow, Reading, RowsNow, State, Term, Why, WorkerStatus

__all__ = ["ClosedTerm", "HostStatus", "JobsNow", "Reading", "RowsNow", "RunFolder", "State", "StatusFault", "Term", "Why",
           "WorkerStatus", "host_runs", "parse_status", "read_status"]
