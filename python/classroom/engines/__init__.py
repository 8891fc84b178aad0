"""What a program or a database says of a pair of queries: `ratest`, SQLite and PostgreSQL.

For others: `engine` (what each database offers), `ratest`, `run_child` (asks within limits),
`counterexample`. """
