"""What PostgreSQL is asked in a way of its own."""

PROGRAMS, HOSTS, FOLDING, MIGRATING = 7_251_001, 7_251_002, 7_251_003, 7_251_004
"""The numbers of advisory locks."""

NUMBERS = "SELECT nextval(pg_get_serial_sequence('job', 'id')) FROM generate_series(1, ?)"

INSERT = """INSERT INTO job (id, tenant, key, program, x, y, fuel, priority, run_at, most_failures, reuse, value, error, state, made_at,
        ended_at)
    SELECT id, tenant, key, program, x, y, fuel, priority, coalesce(run_at, at), most, reuse, value, error,
        CASE WHEN value IS NOT NULL THEN 'complete' WHEN run_at > at THEN 'scheduled' ELSE 'ready' END, at,
        CASE WHEN value IS NOT NULL THEN at END
    FROM unnest(?::bigint[], ?::text[], ?::text[], ?::bigint[], ?::bigint[], ?::bigint[], ?::int[], ?::int[], ?::bigint[], ?::int[],
            ?::int[], ?::bigint[], ?::text[])
            AS new (id, tenant, key, program, x, y, fuel, priority, run_at, most, reuse, value, error),
        (SELECT arena_now() AS at) AS clock
    ON CONFLICT DO NOTHING RETURNING id"""

SETTLE = """UPDATE job SET state = new.state, value = new.value, fault = new.fault, error = new.error, ended_at = arena_now(),
        dispatcher = NULL
    FROM unnest(?::bigint[], ?::int[], ?::text[], ?::bigint[], ?::int[], ?::text[]) AS new (id, attempt, state, value, fault, error)
    WHERE job.id = new.id AND job.state = 'running' AND job.dispatcher = ? AND job.attempt = new.attempt RETURNING job.id"""
"""Records outcomes of attempts that are still under way: so the first outcome stands."""

PROMOTE = """UPDATE job SET state = 'ready' WHERE id IN (SELECT id FROM job WHERE state = 'scheduled' AND run_at <= arena_now()
    FOR UPDATE SKIP LOCKED)"""

HURRY = """UPDATE job SET state = 'ready', run_at = arena_now() WHERE id IN (SELECT id FROM job WHERE state = 'scheduled'
    AND attempt > 0 AND run_at > arena_now() + ? FOR UPDATE SKIP LOCKED)"""

CLAIM = """WITH first AS MATERIALIZED (
        SELECT id FROM job WHERE state = 'ready' AND tenant = ? ORDER BY priority DESC, id LIMIT ? FOR UPDATE SKIP LOCKED)
    UPDATE job SET state = 'running', dispatcher = ?, attempt = attempt + 1, started_at = arena_now() FROM first WHERE job.id = first.id
    RETURNING job.id, attempt, program, x, y, fuel, failures, alone, tenant, started_at - run_at, priority"""

KEEP = """INSERT INTO figure SELECT tenant, arena_now() / 60000000, what, bucket, jobs, micros
    FROM unnest(?::text[], ?::text[], ?::int[], ?::bigint[], ?::bigint[]) AS new (tenant, what, bucket, jobs, micros)"""

FOLD_TALLY = """WITH gone AS (DELETE FROM tally RETURNING *)
    INSERT INTO tally SELECT tenant, state, sum(jobs), sum(passed) FROM gone GROUP BY tenant, state"""

FOLD_FIGURES = """WITH gone AS (DELETE FROM figure RETURNING *)
    INSERT INTO figure SELECT tenant, CASE WHEN minute > arena_now() / 60000000 - ? THEN minute ELSE 0 END AS at, what, bucket,
        sum(jobs), sum(micros) FROM gone GROUP BY tenant, at, what, bucket"""

ORPHANS = "SELECT id, attempt, orphaned FROM job WHERE state = 'running' AND dispatcher = ? ORDER BY id FOR UPDATE"
