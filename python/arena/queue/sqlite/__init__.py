"""The queue in a file: SQLite in WAL mode, for the processes of one machine."""
