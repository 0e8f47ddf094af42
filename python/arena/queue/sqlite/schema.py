"""The tables of the queue, as steps that are done in order, each once. What an index is for stands before it."""
from collections.abc import Sequence

_CAME = """INSERT INTO tally (tenant, state, jobs) VALUES (NEW.tenant, NEW.state, 1)
    ON CONFLICT (tenant, state) DO UPDATE SET jobs = jobs + 1;"""
_WENT = "UPDATE tally SET jobs = jobs - 1, passed = passed + 1 WHERE tenant = OLD.tenant AND state = OLD.state;"

STEPS: Sequence[Sequence[str]] = (
    (
        """CREATE TABLE program (
            id INTEGER PRIMARY KEY AUTOINCREMENT, hash TEXT NOT NULL UNIQUE, procs TEXT NOT NULL, serial INTEGER NOT NULL,
            made_at INTEGER NOT NULL)""",
        # A dispatcher's lease covers all jobs that it runs, so that a heartbeat writes one row. `until` is by the clock since
        # the machine's start, which nobody sets, and `boot` names that start.
        """CREATE TABLE dispatcher (
            id INTEGER PRIMARY KEY AUTOINCREMENT, name TEXT NOT NULL, began_at INTEGER NOT NULL, boot TEXT NOT NULL,
            until INTEGER NOT NULL)""",
        # A host has one dispatcher at a time: jobs that a lost one left there are forgotten by the next.
        "CREATE TABLE host (name TEXT PRIMARY KEY, dispatcher INTEGER NOT NULL) WITHOUT ROWID",
        """CREATE TABLE job (
            id INTEGER PRIMARY KEY AUTOINCREMENT, tenant TEXT NOT NULL, key TEXT,
            program INTEGER NOT NULL, x INTEGER NOT NULL, y INTEGER NOT NULL, fuel INTEGER NOT NULL,
            priority INTEGER NOT NULL,
            state TEXT NOT NULL CHECK (state IN
                ('scheduled', 'ready', 'running', 'complete', 'fault', 'canceled', 'dead')),
            run_at INTEGER NOT NULL, attempt INTEGER NOT NULL DEFAULT 0, failures INTEGER NOT NULL DEFAULT 0,
            most_failures INTEGER NOT NULL, orphaned INTEGER NOT NULL DEFAULT 0, alone INTEGER NOT NULL DEFAULT 0,
            dispatcher INTEGER,
            cancel INTEGER NOT NULL DEFAULT 0, reuse INTEGER NOT NULL DEFAULT 0,
            value INTEGER, fault INTEGER, error TEXT,
            made_at INTEGER NOT NULL, started_at INTEGER, ended_at INTEGER,
            CHECK ((state = 'running') = (dispatcher IS NOT NULL)),
            CHECK ((state = 'complete') = (value IS NOT NULL)),
            CHECK ((state = 'fault') = (fault IS NOT NULL)),
            CHECK ((state IN ('complete', 'fault', 'canceled', 'dead')) = (ended_at IS NOT NULL)))""",
        "CREATE UNIQUE INDEX job_key ON job (tenant, key) WHERE key IS NOT NULL",
        # What is claimed next.
        "CREATE INDEX job_ready ON job (tenant, priority DESC, id) WHERE state = 'ready'",
        # How long the oldest one waits.
        "CREATE INDEX job_oldest ON job (run_at) WHERE state = 'ready'",
        # What is due next; a million of these are not stepped over by a claim.
        "CREATE INDEX job_scheduled ON job (run_at) WHERE state = 'scheduled'",
        "CREATE INDEX job_running ON job (dispatcher) WHERE state = 'running'",
        # What is removed first, and what ended last.
        "CREATE INDEX job_ended ON job (ended_at) WHERE ended_at IS NOT NULL",
        # Lists of what went wrong.
        "CREATE INDEX job_dead ON job (id) WHERE state = 'dead'",
        "CREATE INDEX job_fault ON job (id) WHERE state = 'fault'",
        # Values that later jobs may have without being run.
        "CREATE INDEX job_value ON job (tenant, program, x, y) WHERE state = 'complete' AND reuse = 1",
        """CREATE TABLE event (
            id INTEGER PRIMARY KEY, job INTEGER NOT NULL, at INTEGER NOT NULL, what TEXT NOT NULL, attempt INTEGER NOT NULL,
            detail TEXT)""",
        "CREATE INDEX event_job ON event (job)",
        # How many jobs there are, so that nobody counts them.
        """CREATE TABLE tally (
            tenant TEXT NOT NULL, state TEXT NOT NULL, jobs INTEGER NOT NULL, PRIMARY KEY (tenant, state)) WITHOUT ROWID""",
        """CREATE TRIGGER job_made AFTER INSERT ON job BEGIN
            INSERT INTO tally VALUES (NEW.tenant, NEW.state, 1) ON CONFLICT (tenant, state) DO UPDATE SET jobs = jobs + 1;
            END""",
        """CREATE TRIGGER job_moved AFTER UPDATE OF state ON job WHEN OLD.state <> NEW.state BEGIN
            UPDATE tally SET jobs = jobs - 1 WHERE tenant = OLD.tenant AND state = OLD.state;
            INSERT INTO tally VALUES (NEW.tenant, NEW.state, 1) ON CONFLICT (tenant, state) DO UPDATE SET jobs = jobs + 1;
            END""",
        """CREATE TRIGGER job_gone AFTER DELETE ON job BEGIN
            UPDATE tally SET jobs = jobs - 1 WHERE tenant = OLD.tenant AND state = OLD.state;
            END""",
        # How long ended jobs are kept, in seconds, and how many.
        "CREATE TABLE setting (name TEXT PRIMARY KEY, value INTEGER) WITHOUT ROWID",
        "INSERT INTO setting VALUES ('keep_seconds', 604800), ('keep_jobs', 1000000)",
        # Tenants that want something of their own.
        "CREATE TABLE tenant (name TEXT PRIMARY KEY, reuse INTEGER NOT NULL) WITHOUT ROWID",
    ),
    (
        # Who may ask over HTTP for which tenant, by the hash of a token alone.
        """CREATE TABLE token (
            hash TEXT PRIMARY KEY, tenant TEXT NOT NULL, note TEXT NOT NULL, made_at INTEGER NOT NULL) WITHOUT ROWID""",
    ),
    (
        # What a token may ask for, where that is not what the service says.
        "ALTER TABLE token ADD COLUMN rate REAL",
        "ALTER TABLE token ADD COLUMN bytes INTEGER",
        # What a program was compiled from, so that a fault has its line.
        "ALTER TABLE program ADD COLUMN source TEXT",
        # How long the oldest one of a tenant waits.
        "DROP INDEX job_oldest",
        "CREATE INDEX job_oldest ON job (tenant, run_at) WHERE state = 'ready'",
        # How many jobs were in a state, and are no more.
        "ALTER TABLE tally ADD COLUMN passed INTEGER NOT NULL DEFAULT 0",
        "DROP TRIGGER job_made",
        "DROP TRIGGER job_moved",
        "DROP TRIGGER job_gone",
        f"CREATE TRIGGER job_made AFTER INSERT ON job BEGIN {_CAME} END",
        f"CREATE TRIGGER job_moved AFTER UPDATE OF state ON job WHEN OLD.state <> NEW.state BEGIN {_WENT} {_CAME} END",
        f"CREATE TRIGGER job_gone AFTER DELETE ON job BEGIN {_WENT} END",
        # How many jobs came, and how long they waited and ran, by the minute (`figures`).
        """CREATE TABLE figure (
            tenant TEXT NOT NULL, minute INTEGER NOT NULL, what TEXT NOT NULL, bucket INTEGER NOT NULL, jobs INTEGER NOT NULL,
            micros INTEGER NOT NULL, PRIMARY KEY (tenant, minute, what, bucket)) WITHOUT ROWID""",
    ),
    (
        # Programs that stay though no job has them.
        "ALTER TABLE program ADD COLUMN kept INTEGER NOT NULL DEFAULT 0",
        # Those that were given back, so that a clock that was set back does not hold them up.
        "CREATE INDEX job_given_back ON job (run_at) WHERE state = 'scheduled' AND attempt > 0",
    ),
)
