"""Comparison of `ratest` with programs that others wrote: SQLite, PostgreSQL and the solver Z3.

A case is a schema, rows and two queries, all drawn from one seed (`draw`). The same case is written
in the words of each program (`model`, `query`), and what `ratest` prints of it is compared with
what the other program finds (`by_sqlite`, `by_postgres`, `by_z3`). `command` runs many seeds over
all processors. """
