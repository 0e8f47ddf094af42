"""What SQLite is asked in a way of its own."""

_GIVEN = "tenant, key, program, x, y, fuel, priority, run_at, most_failures, reuse, value, error, state, made_at, ended_at"
"""What a new job has beside its number."""

STAGES = (f"CREATE TEMP TABLE new_job (id INTEGER PRIMARY KEY, {_GIVEN})",
          """CREATE TEMP TABLE ending (id INTEGER PRIMARY KEY ON CONFLICT IGNORE, attempt INTEGER NOT NULL, state TEXT NOT NULL,
              value INTEGER, fault INTEGER, error TEXT)""")
"""Tables of the connection's own, in memory: what a transaction brings is put there, and one statement takes all of it. That takes half
the time of a statement for each job, which opens every index anew."""

BRING_JOB = f"INSERT INTO new_job VALUES ({', '.join('?' * (len(_GIVEN.split(',')) + 1))})"

BRING_ENDING = "INSERT INTO ending VALUES (?, ?, ?, ?, ?, ?)"

INSERT = f"INSERT INTO job (id, {_GIVEN}) SELECT id, {_GIVEN} FROM new_job WHERE true ORDER BY id ON CONFLICT DO NOTHING"
"""Of two jobs with one key the first is inserted."""

SETTLE = """UPDATE job SET state = new.state, value = new.value, fault = new.fault, error = new.error, ended_at = ?, dispatcher = NULL
    FROM ending AS new WHERE job.id = new.id AND job.state = 'running' AND job.dispatcher = ? AND job.attempt = new.attempt
    RETURNING id"""
"""Records outcomes of attempts that are still under way: so the first outcome stands."""

PROMOTE = "UPDATE job SET state = 'ready' WHERE state = 'scheduled' AND run_at <= arena_now()"

HURRY = """UPDATE job SET state = 'ready', run_at = arena_now() WHERE state = 'scheduled' AND attempt > 0 AND run_at > arena_now() + ?"""

CLAIM = """UPDATE job SET state = 'running', dispatcher = ?, attempt = attempt + 1, started_at = ?
    WHERE id IN (SELECT id FROM job WHERE state = 'ready' AND tenant = ? ORDER BY priority DESC, id LIMIT ?)
    RETURNING id, attempt, program, x, y, fuel, failures, alone, tenant, started_at - run_at, priority"""

KEEP = """INSERT INTO figure (tenant, minute, what, bucket, jobs, micros) VALUES (?, ?, ?, ?, ?, ?)
    ON CONFLICT (tenant, minute, what, bucket) DO UPDATE SET jobs = jobs + excluded.jobs, micros = micros + excluded.micros"""

FOLD = """INSERT INTO figure (tenant, minute, what, bucket, jobs, micros)
    SELECT tenant, 0, what, bucket, sum(jobs), sum(micros) FROM figure WHERE minute BETWEEN 1 AND ? GROUP BY tenant, what, bucket
    ON CONFLICT (tenant, minute, what, bucket) DO UPDATE SET jobs = jobs + excluded.jobs, micros = micros + excluded.micros"""
