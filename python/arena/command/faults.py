"""Which exit status and which text a fault has. This is loaded only once there is one."""
from arena.command.call import WordsFault
from arena.command.script import ProgramFault
from arena.command.sources import SourceWrong
from arena.command.words import Status
from arena.host.orders import NoHost, NotYet
from arena.host.parent import Taken
from arena.host.reading import StatusFault
from arena.pool.faults import Final
from arena.queue.base import all_faults
from arena.queue.model import QueueError
from arena.queue.programs import NoProgram
from arena.replies import ArenaError, Refused, TimedOut
from arena.trace import DumpFault


def described(fault: Exception) -> tuple[int, str] | None:
    """The exit status and the text of what went wrong; None for what should not happen."""
    status = status_of(fault)
    if status is Status.FILE:
        name = getattr(fault, "filename", None) or "file"
        return status, f"{name}: {getattr(fault, 'strerror', None) or fault}"
    return None if status is None else (status, str(fault).strip())


def status_of(fault: Exception) -> int | None:
    """The exit status of what went wrong; None for what should not happen."""
    match fault:
        case Refused():
            return Status.REFUSED + fault.code
        case Final():
            return Status.REFUSED + fault.fault.code
        case QueueError():
            return Status.QUEUE
        case Exception() if isinstance(fault, all_faults()):
            return Status.QUEUE
        case NoProgram() | SourceWrong():
            return Status.SOURCE
        case TimedOut() | NotYet():
            return Status.TIMEOUT
        case ArenaError():
            return Status.CONNECTION
        case WordsFault():
            return Status.WORDS
        case DumpFault():
            return Status.DUMP
        case ProgramFault():
            return Status.PROGRAM
        case StatusFault() | NoHost() | Taken():
            return Status.HOST
        case OSError():
            return Status.FILE
    return None
