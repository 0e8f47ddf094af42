"""The queue in PostgreSQL, for processes on many machines, by psycopg2 (Debian: python3-psycopg2)."""
