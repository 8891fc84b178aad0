"""What the users of a trial in PostgreSQL may not do, as queries with what is told where one is
true."""
from __future__ import annotations

# Routines that are not volatile and show other sessions, their texts or rows of other schemas.
REVEALING = (
    "^pg_stat_get_(activity|backend_.*|wal_senders?|progress_info|replication_slot|subscription)$"
    "|_to_xml|^pg_(prepared_statement|cursor|current_xact_id)$|^txid_current$"
)
# The asker's and the loader's sessions show no text to each other.
TEXTS_ARE_SEEN = (
    "SELECT current_setting('track_activities')::bool",
    "shows the texts of its sessions (track_activities is on)",
)
RIGHTS = (
    (
        "SELECT rolsuper OR rolcreaterole OR rolcreatedb OR rolbypassrls OR rolreplication FROM"
        " pg_roles WHERE rolname = current_user",
        "is a superuser, or may make roles or databases",
    ),
    (
        "SELECT has_database_privilege(current_database(), 'CREATE') OR"
        " has_database_privilege(current_database(), 'TEMP')",
        "may create in the database",
    ),
    (
        "SELECT bool_or(has_schema_privilege(oid, 'CREATE')) FROM pg_namespace",
        "may create in a schema",
    ),
    (
        "SELECT count(*) > 0 FROM pg_proc WHERE prokind IN ('f', 'p', 'w') AND"
        " has_function_privilege(oid, 'EXECUTE') AND (provolatile = 'v' OR proname ~"
        f" '{REVEALING}')",
        "may execute volatile routines, or see other sessions or other schemas",
    ),
    ("SELECT current_setting('temp_file_limit') = '-1'", "has no temp_file_limit"),
    TEXTS_ARE_SEEN,
)
LOADER_RIGHTS = (
    (
        "SELECT rolsuper OR rolbypassrls FROM pg_roles WHERE rolname = current_user",
        "is a superuser",
    ),
    (
        "SELECT NOT bool_and(has_function_privilege(oid, 'EXECUTE')) FROM pg_proc WHERE oid IN"
        " ('pg_advisory_lock(bigint)'::regprocedure,"
        " 'pg_try_advisory_lock(bigint)'::regprocedure,"
        " 'pg_advisory_unlock(bigint)'::regprocedure)",
        "may take no advisory lock",
    ),
    TEXTS_ARE_SEEN,
)
