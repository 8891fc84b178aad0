"""Databases, what is written of them, and what is told."""
from __future__ import annotations

from products import Postgres, Sqlite

# Odd names, NULL, quotes, commas, line ends, composite keys, a reference of a table to itself,
# cycles of rows, CHECK. What only one of the products has stands for the words in braces.
ODD = r'''
CREATE TABLE "odd, ""table""" (
  id INTEGER PRIMARY KEY, "select" VARCHAR(40) UNIQUE, "a,b" TEXT, "line
end" BIGINT NOT NULL, boss INT REFERENCES "odd, ""table""" (id), "it's real" {real}, CHECK (id > 0));
CREATE TABLE pair (one INTEGER, two VARCHAR(9), three TEXT, PRIMARY KEY (one, two));
CREATE TABLE part (
  one INTEGER, two TEXT, id BIGINT CHECK (id <> 5), UNIQUE (one, id),
  FOREIGN KEY (one, two) REFERENCES pair, FOREIGN KEY (id) REFERENCES "odd, ""table""" ON DELETE CASCADE);
CREATE TABLE single (sole TEXT);
INSERT INTO "odd, ""table""" VALUES
  (1, 'it''s', 'a,b', 9223372036854775807, 1, 1.5), (2, 'say "hi"', NULL, -9223372036854775808, 3, NULL),
  (3, 'two
lines', '  blanks  ', 0, 2, 2), (4, NULL, 'NULL', 7, NULL, 0), (5, {cr}, 'é☃', -7, 4, 0), (6, ',', ',,', 7, 6, 0);
INSERT INTO pair VALUES (2, 'b', 'x'), (1, 'b', 'xyz'), (1, 'a', NULL), (3, '1', '1');
INSERT INTO part VALUES (1, 'a', 1), (1, 'b', NULL), (NULL, 'zz', 6), (2, NULL, 4), (3, '1', 3), (NULL, NULL, NULL);
INSERT INTO single VALUES ('x'), (NULL), ('"'), ('
');
'''

ODD_SCHEMA = r'''CREATE TABLE "odd, ""table""" (
  id INTEGER{not_null},
  "select" TEXT,
  "a,b" TEXT,
  "line
end" INTEGER NOT NULL,
  boss INTEGER,
  PRIMARY KEY (id),
  UNIQUE ("select"),
  FOREIGN KEY (boss) REFERENCES "odd, ""table""" (id),
  CHECK (id > 0)
);

CREATE TABLE pair (
  one INTEGER{not_null},
  two TEXT{not_null},
  three TEXT,
  PRIMARY KEY (one, two)
);

CREATE TABLE part (
  one INTEGER,
  two TEXT,
  id INTEGER,
  UNIQUE (one, id),
  FOREIGN KEY (one, two) REFERENCES pair (one, two),
  FOREIGN KEY (id) REFERENCES "odd, ""table""" (id),
  CHECK (id <> 5)
);

CREATE TABLE single (
  sole TEXT
);
'''

ODD_QUERIES = r'''
SELECT id, "select", "a,b", "line
end", boss FROM "odd, ""table""";
SELECT * FROM pair;
SELECT * FROM part;
SELECT * FROM single;
SELECT sole FROM single WHERE sole = '
' OR sole = '"';
SELECT id FROM "odd, ""table""" WHERE "select" = 'two
lines' OR "select" = 'it''s' OR "a,b" = '  blanks  ';
SELECT o.id, b.id FROM "odd, ""table""" o JOIN "odd, ""table""" b ON o.boss = b.id WHERE o.id <> b.id;
SELECT p.two, q.three FROM part p, pair q WHERE p.one = q.one AND p.two = q.two;
SELECT id FROM "odd, ""table""" WHERE id NOT IN (SELECT id FROM part);
SELECT id FROM "odd, ""table""" o WHERE NOT EXISTS (SELECT * FROM part WHERE part.id = o.id);
SELECT one FROM pair EXCEPT SELECT one FROM part WHERE id IS NULL;
SELECT two FROM pair UNION SELECT "select" FROM "odd, ""table""";
SELECT "line
end" FROM "odd, ""table""" INTERSECT SELECT id + 4 FROM "odd, ""table""" WHERE id BETWEEN 2 AND 4;
SELECT id * 2 - 7 AS n FROM "odd, ""table""" WHERE NOT (boss = 1 OR "a,b" < 'b');
SELECT one FROM pair WHERE three = 'x' OR three = '1';
SELECT two FROM pair WHERE one = 77
'''.strip().split(
    ";\n"
)

ODD_NOTES = """odd, "table".it's real: left out: the type {real} is not read"""

SERIES = (
    "CREATE TABLE t (a INTEGER PRIMARY KEY, b INTEGER REFERENCES t); INSERT INTO t WITH RECURSIVE n"
    " (a) AS (SELECT 1 UNION ALL SELECT a + 1 FROM n WHERE a < 2001) SELECT a, 2002 - a FROM n;"
)

# Each a database, the words after it, whether it is exported, and what is told.
CASES = {
    "types": (
        (
            "CREATE TABLE t (a INTEGER, b {real} NOT NULL, c {odd} UNIQUE, PRIMARY KEY (a, b));"
            "CREATE TABLE u (a INTEGER, b {real}, n TEXT, FOREIGN KEY (a, b) REFERENCES t);"
            "CREATE TABLE w (b {real}); CREATE VIEW v AS SELECT a FROM t;"
        ),
        "",
        True,
        (
            "v: left out: a view\nt.b: left out: the type {real} is not read\nt.c: left out: the"
            " type {odd} is not read\nu.b: left out: the type {real} is not read\nw.b: left out:"
            " the type {real} is not read\nt: left out with its column: PRIMARY KEY (a, b)\nt: left"
            " out with its column: UNIQUE (c)\nu: left out with its column: FOREIGN KEY (a, b); a"
            " witness may lack the row of t\nw: left out: no column of it is carried over"
        ),
    ),
    "indexes": (
        (
            "CREATE TABLE t (a INTEGER, b TEXT); CREATE UNIQUE INDEX half ON t (a) WHERE a > 1;"
            "CREATE UNIQUE INDEX made ON t (lower(b)); CREATE UNIQUE INDEX whole ON t (b, a);"
            "CREATE INDEX plain ON t (a);"
        ),
        "",
        True,
        (
            "t: left out: the unique index half, which is partial or on an expression\n"
            "t: left out: the unique index made, which is partial or on an expression"
        ),
    ),
    "generated": (
        "CREATE TABLE t (a INTEGER UNIQUE, b INTEGER GENERATED ALWAYS AS (a + 1) STORED UNIQUE);",
        "",
        True,
        "t.b: left out: a generated column\nt: left out with its column: UNIQUE (b)",
    ),
    "first": (
        (
            "CREATE TABLE u (k INTEGER PRIMARY KEY, up INTEGER REFERENCES u);CREATE TABLE t (k"
            " INTEGER REFERENCES u);INSERT INTO u VALUES (1, NULL), (2, 1), (7, 1), (8, 2), (9, 8);"
            " INSERT INTO t VALUES (9), (1), (NULL);"
        ),
        "--rows 1",
        True,
        "u: 4 of 5 rows\nt: 1 of 3 rows",
    ),
    "grown": (SERIES, "--rows 7", True, "t: 14 of 2001 rows"),
    "many": (
        SERIES,
        "",
        False,
        (
            "2001 rows are more than the 2000 that are read; --rows N takes N of each table, "
            "and `classroom pick` finds those that tell the mistakes"
        ),
    ),
    "over": (
        SERIES,
        "--rows 1500",
        False,
        (
            "with the rows that they refer to these are 2001, more than the 2000 that "
            "are read; take fewer"
        ),
    ),
    "blank": (
        'CREATE TABLE t (a INTEGER, " b" INTEGER);',
        "",
        True,
        (
            "t. b: left out: a name with a blank at an end or without a letter can't stand in a CSV"
            " file"
        ),
    ),
    "line": (
        'CREATE TABLE "t\nt" (a INTEGER, b {real});',
        "",
        True,
        "'t\\nt'.b: left out: the type {real} is not read",
    ),
    "empty": (
        "CREATE TABLE t (a TEXT); INSERT INTO t VALUES ('x'), ('');",
        "",
        False,
        "t.a: an empty text, which a CSV file can't tell from NULL",
    ),
    "slash": (
        'CREATE TABLE "a/b" (a TEXT);',
        "",
        False,
        "a/b: no file can have the name of this table",
    ),
    "named": (
        "CREATE TABLE u (k INTEGER PRIMARY KEY); CREATE TABLE t (k INTEGER REFERENCES u);",
        "t",
        False,
        "t: FOREIGN KEY (k) refers to the table u, which is not exported",
    ),
    "absent": ("CREATE TABLE t (a TEXT);", "t nosuch", False, "there is no table nosuch"),
    "bare": ("CREATE VIEW v AS SELECT 1 AS a;", "", False, "there is no table"),
    "rules": (
        (
            "CREATE TABLE t (a INTEGER UNIQUE, "
            f"{', '.join(f'CONSTRAINT n{n} CHECK (a <> {n})' for n in range(10, 74))});"
        ),
        "",
        True,
        "t: left out: CHECK n73, which is past the 64 rules of a table",
    ),
    "wide": (
        f"CREATE TABLE t ({', '.join(f'c{n} INTEGER' for n in range(65))});",
        "",
        False,
        "t: more than 64 columns, or keys and foreign keys",
    ),
}

SQLITE_CASES = {
    "stray": (
        (
            "CREATE TABLE s (a TEXT); CREATE TABLE t (a INTEGER, b TEXT UNIQUE, c INTEGER, d);"
            "INSERT INTO t VALUES ('x', x'00', 1.5, 1);"
        ),
        "",
        True,
        (
            "t.a: left out: INTEGER, but 1 of its values are of another type\n"
            "t.b: left out: TEXT, but 1 of its values are of another type\n"
            "t.c: left out: INTEGER, but 1 of its values are of another type\n"
            "t.d: left out: the type without a name is not read\n"
            "t: left out with its column: UNIQUE (b)\nt: left out: no column of it is carried over"
        ),
    ),
    "nulls": (
        (
            "CREATE TABLE t (a TEXT PRIMARY KEY COLLATE NOCASE); INSERT INTO t VALUES (NULL),"
            " (NULL), ('A');"
        ),
        "",
        True,
        (
            "t: left out: COLLATE; texts are compared by their bytes\n"
            "t: PRIMARY KEY (a) has NULL in some rows: written as UNIQUE"
        ),
    ),
    "unmet": (
        (
            "CREATE TABLE u (k INTEGER PRIMARY KEY); CREATE TABLE t (k INTEGER REFERENCES u);"
            "INSERT INTO t VALUES (5), (6), (5);"
        ),
        "",
        True,
        "t: FOREIGN KEY (k): values that no row of u has: 2; no witness has rows with them",
    ),
    "loose": (
        (
            "CREATE TABLE u (k INTEGER, n TEXT); CREATE TABLE t (k INTEGER REFERENCES u (k));"
            "INSERT INTO t VALUES (2); INSERT INTO u VALUES (1, 'a'), (2, 'b'), (2, 'c');"
        ),
        "--rows 1",
        True,
        "u: 2 of 3 rows\nt: 1 of 1 rows",
    ),
    "nothing": (
        "CREATE TABLE t (a REAL);",
        "",
        False,
        "no table has a column that can be carried over",
    ),
    "missing": (
        "CREATE TABLE t (k INTEGER REFERENCES u);",
        "",
        False,
        "t: FOREIGN KEY (k) refers to the table u, which is not exported",
    ),
    "keyless": (
        "CREATE TABLE u (k INTEGER); CREATE TABLE t (k INTEGER REFERENCES u);",
        "",
        False,
        "t: FOREIGN KEY (k) refers to u, which has no primary key",
    ),
    "column": (
        "CREATE TABLE u (k INTEGER); CREATE TABLE t (k INTEGER REFERENCES u (j));",
        "",
        False,
        "t: FOREIGN KEY (k) refers to u.j, which is not there",
    ),
    "kinds": (
        "CREATE TABLE u (k TEXT PRIMARY KEY); CREATE TABLE t (k INTEGER REFERENCES u);",
        "",
        False,
        "t: FOREIGN KEY (k) and u (k) differ in number or type",
    ),
    "sixteen": (
        "PRAGMA encoding = 'UTF-16le'; CREATE TABLE é (A TEXT); INSERT INTO é VALUES ('☃');",
        "é",
        True,
        "",
    ),
    "trigger": (
        "CREATE TABLE t (a TEXT); CREATE TRIGGER r AFTER INSERT ON T BEGIN SELECT 1; END;",
        "T",
        True,
        "t: left out: the trigger r",
    ),
    "bytes": (
        "CREATE TABLE t (a TEXT); INSERT INTO t VALUES (CAST(x'ff' AS TEXT));",
        "",
        False,
        "t: row 1 has a text that is not UTF-8",
    ),
}

POSTGRES_CASES = {
    "heirs": (
        "CREATE TABLE t (a INTEGER); CREATE TABLE u (b INTEGER) INHERITS (t);",
        "",
        False,
        "t: rows of other tables, which inherit from it, stand in it too",
    ),
    "ranges": (
        (
            "CREATE TABLE t (k INT PRIMARY KEY) PARTITION BY RANGE (k);CREATE TABLE t1 PARTITION OF"
            " t FOR VALUES FROM (0) TO (9); INSERT INTO t VALUES (3), (2);CREATE TABLE u (k INT"
            " REFERENCES t, i UUID, UNIQUE (k) INCLUDE (i)); INSERT INTO u VALUES (3);"
        ),
        "",
        True,
        "u.i: left out: the type uuid is not read",
    ),
    "domains": (
        "CREATE DOMAIN d AS TEXT NOT NULL CHECK (VALUE <> 'x'); CREATE TABLE t (a d, b INT[]);",
        "",
        True,
        "t.b: left out: the type integer[] is not read",
    ),
    "schemas": (
        (
            "CREATE SCHEMA s; CREATE TABLE s.u (k INT PRIMARY KEY); CREATE TABLE t (k INT"
            " REFERENCES s.u);"
        ),
        "",
        False,
        "t: FOREIGN KEY (k) refers to the table s.u, which is not exported",
    ),
}

# What some of these write.
FILES = {
    "nulls": {
        "schema.sql": "CREATE TABLE t (\n  a TEXT,\n  UNIQUE (a)\n);\n",
        "t.csv": 'a\n""\n""\nA\n',
    },
    "indexes": {
        "schema.sql": "CREATE TABLE t (\n  a INTEGER,\n  b TEXT,\n  UNIQUE (b, a)\n);\n",
        "t.csv": "a,b\n",
    },
    "ranges": {
        "schema.sql": (
            "CREATE TABLE t (\n  k INTEGER NOT NULL,\n  PRIMARY KEY (k)\n);\n\nCREATE TABLE u (\n"
            "  k INTEGER,\n  UNIQUE (k),\n  FOREIGN KEY (k) REFERENCES t (k)\n);\n"
        ),
        "t.csv": "k\n2\n3\n",
        "u.csv": "k\n3\n",
    },
    "loose": {
        "schema.sql": (
            "CREATE TABLE u (\n  k INTEGER,\n  n TEXT\n);\n\nCREATE TABLE t (\n  k INTEGER,\n"
            "  FOREIGN KEY (k) REFERENCES u (k)\n);\n"
        ),
        "t.csv": "k\n2\n",
        "u.csv": "k,n\n1,a\n2,b\n",
    },
    "domains": {
        "schema.sql": "CREATE TABLE t (\n  a TEXT NOT NULL,\n  CHECK (a <> 'x')\n);\n",
        "t.csv": "a\n",
    },
    "sixteen": {"schema.sql": 'CREATE TABLE "é" (\n  a TEXT\n);\n', "é.csv": "a\n☃\n"},
}

OWN: dict[type[Sqlite] | type[Postgres], dict[str, str]] = {
    Sqlite: {"real": "REAL", "odd": "UUID", "cr": "'c' || char(13)", "not_null": ""},
    Postgres: {
        "real": "double precision",
        "odd": "uuid",
        "cr": "'c' || chr(13)",
        "not_null": " NOT NULL",
    },
}
