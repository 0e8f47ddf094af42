"""Defects that are planted in the server and in the host."""
from dataclasses import dataclass


@dataclass(frozen=True)
class Edit:
    """A text of a file, which is there once, and what stands in its place."""

    file: str
    old: str
    new: str


@dataclass(frozen=True)
class Defect:
    """Edits that plant a defect in a program."""

    program: str
    edits: tuple[Edit, ...]


def in_server(*edits: Edit) -> Defect:
    """A defect of the server."""
    return Defect("arena-server", edits)


def in_host(*edits: Edit) -> Defect:
    """A defect of the host."""
    return Defect("arena-host", edits)


PAUSES, LEAVES = "crates/tenant_lock/src/doors/waiting.rt", "crates/tenant_lock/src/doors/moving.rt"
NEWS, BELL = "crates/tenant_lock/src/news.rt", "crates/worker_main/src/bell.rt"
PAUSE = """
    pub fn pause_until<R: Wait>(&self, rt: &R, pass: &Pass, stop: &StopFlag) -> bool
        requires { pass.now.tenant ≡ self.now.tenant }
    {
        let held = self.lock(rt);
        let Some(at_slot) = self.at_slots.get(usize::from(pass.slot())) else {
            return held.is_over();
        };
        let held = at_slot.wait_while(rt, held, |held| !stop.is_raised() && held.sleeps_at(pass));
        stop.is_raised() || held.is_over()
    }

"""
DESKS, BOARD, FOLDERS = "crates/host_terms/src/desks.rt", "crates/host_terms/src/board.rt", "crates/host_folder/src/folders.rt"
KEEPS_FIRST = """        match self.kept(rt, alloc) {
            Some(kept) => self.outbox.send(rt, kept),
            None => {
                self.outbox.settle(None);
                Err(lost())
            }
        }
"""
SENDS_FIRST = """        let is_owing = self.outbox.is_owing();
        let sent = self.outbox.send(rt, Kept::of_nothing());
        if is_owing {
            self.outbox.owe().told();
            let Some(kept) = self.kept(rt, alloc) else {
                self.outbox.settle(None);
                return Err(lost());
            };
            self.outbox.settle(Some(kept));
        }
        sent
"""
RINGS_LAST = """        self.calls.note(self.board);
        self.board.bell.ring(rt, pushed);
"""
RINGS_FIRST = """        self.board.bell.ring(rt, pushed);
        self.calls.note(self.board);
"""
RING = "    fn ring<R: Wait>(&self, rt: &R, pushed: Pushed) {\n"
WORKING = "crates/host_terms/src/hosts/working.rt"
PLANTED = {
    # A session's pause at its own slot ends when its client has gone, and the slot goes home with rows on it.
    "gone": in_server(
        Edit("crates/server_doors/src/slots.rt", "doors[pass.tenant()].pause(rt, pass)", "doors[pass.tenant()].pause_until(rt, pass, self.stop)"),
        Edit(PAUSES, "    /// How many wait at the tenant's slots, and how often they were woken.\n    pub fn waits", PAUSE + "    pub fn waits"),
        Edit(LEAVES, "if held.may_leave(pass) {\n                return held;\n            }\n            drop(held);\n            yield_now();", "return held;"),
    ),
    # Of those who wait for jobs only one is woken.
    "outcome": in_server(Edit(NEWS, "outcomes.notify_all();", "outcomes.notify_one();")),
    # A ring is not counted, so one between a failed pop and the wait is lost.
    "bell": in_server(Edit(BELL, f"{RING}        self.rung.lock(rt).ring();\n", RING)),
    # Replies go out before the journal has what they tell.
    "early": in_host(Edit(DESKS, KEEPS_FIRST, SENDS_FIRST)),
    # The first term after a start begins with the job of number 1 again.
    "numbers": in_host(Edit(FOLDERS, "base: base.saturating_add(room),", "base: 0,")),
    # No worker is woken for a call that is noted.
    "ring": in_host(Edit(BOARD, "        self.board.bell.ring(rt, pushed);", "        pushed.rung();")),
    # A worker is woken before the call is noted, and may look for it before it is there, and wait.
    "noted": in_host(Edit(BOARD, RINGS_LAST, RINGS_FIRST)),
    # A call that is held back is not looked at any more.
    "held": in_host(Edit(WORKING, "                self.look_at_held(rt);\n", "")),
}
