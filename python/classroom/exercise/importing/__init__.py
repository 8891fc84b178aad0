"""Makes the folder of an exercise from a database: tables, rules and rows, and what of them is left
out.

For others: `source` opens a database, `export` writes the folder.
"""
