"""What becomes of a job for each answer of a host."""
import random

from arena.pool.pool import ALONE_TRIES, BY_LOAD, SUSPECT
from arena.queue.model import SECOND, Claim, Ending, GiveBack, State
from arena.replies import Canceled, Complete, Fault, Outcome

FIRST_DELAY, LONGEST_DELAY = SECOND // 10, 300 * SECOND
"""How long a lost job waits before it is run again, in microseconds: twice as long each time."""


def runs_alone(claim: Claim) -> bool:
    """Whether no other job of the tenant may run beside it at its host: it had a fault that load may have made, or it may be
    what ended several connections."""
    return claim.alone > 0 or claim.failures >= SUSPECT


def ended(claim: Claim, is_serial: bool, outcome: Outcome, seconds: float) -> Ending | GiveBack:
    """What an outcome means that came so many seconds after the claim."""
    ran = int(seconds * SECOND)
    match outcome:
        case Complete(value):
            return Ending(claim.job, claim.attempt, State.COMPLETE, value, tenant=claim.tenant, ran=ran)
        case Fault(code):
            if is_serial and code in BY_LOAD and claim.alone < ALONE_TRIES:
                return GiveBack(claim.job, claim.attempt, f"fault {code.value}, to be tried alone", False, alone=True)
            return Ending(claim.job, claim.attempt, State.FAULT, fault=code.value, tenant=claim.tenant, ran=ran)
        case Canceled():
            return Ending(claim.job, claim.attempt, State.CANCELED, tenant=claim.tenant, ran=ran)


def lost(claim: Claim, why: str) -> GiveBack:
    """The job may have run, or not, and its outcome will not come."""
    return GiveBack(claim.job, claim.attempt, why, True, delay(claim.failures))


def not_run(claim: Claim, why: str, seconds: float = 0.0) -> GiveBack:
    """Nothing of the job was run."""
    return GiveBack(claim.job, claim.attempt, why, False, int(seconds * SECOND))


def never(claim: Claim, why: str) -> Ending:
    """No host will take it."""
    return Ending(claim.job, claim.attempt, State.DEAD, error=why)


def delay(before: int) -> int:
    """Twice as long each time that a job was lost before, in microseconds, and drawn, so that what was lost together does not come
    back together."""
    longest = min(LONGEST_DELAY, FIRST_DELAY << min(before, 20))
    return random.randrange(longest // 2, longest)
