"""CHECKs: those that are carried over, and those that are left out with what is told."""
from __future__ import annotations

from collections.abc import Sequence

from products import Postgres, Sqlite

# The columns of every table here, with values that tell conditions apart.
INTEGERS = [None, -32768, -5, -1, 0, 1, 2, 3, 5, 7, 32767]
TEXTS = [
    None,
    "a",
    "A",
    "b",
    "B",
    "ab",
    "a ",
    " a",
    "é",
    "Z",
    "10",
    "9",
    "☃",
    "😀",
    "\ufffd",
    "it's",
    "b\\c",
]
COLUMNS: dict[str, tuple[str, Sequence[int | str | None]]] = {
    "id": ("INTEGER PRIMARY KEY", [0]),
    "a": ("SMALLINT", INTEGERS),
    "s": ("TEXT", TEXTS),
    "b": ("INTEGER", [1, None, -2147483648, -5, 0, 2, 4, 5, 6, 2147483647]),
    "g": ("BIGINT", [0, 1, -9223372036854775808, None, 2, 9999999999, 9223372036854775807]),
    "v": ("VARCHAR(9)", ["b", "a", None, "ab", "A", "a ", "x"]),
    "c": ("CHAR(3)", ["a", "b", "ab", None, " a", "a ", "x"]),
    "k": ("TEXT{byte}", ["a", "B", "b", None, "☃", "é", "ab", "a ", "\ufffd", "😀"]),
    "select": ("TEXT", ["a", None, "b"]),
    'it\'s, "odd"': ("INTEGER", [None, 0, 1, 2]),
}

# A condition, and what is written of it: by both tools, or by from-sqlite and by from-postgres,
# whose server has words of its own for the same. In place of an empty one stands the condition
# itself.
CARRIED = [
    ("a > 0", ""),
    ("0 <= a", ""),
    ("a <> -5", ""),
    ("a != b", "a <> b"),
    ("g < 9999999999", ""),
    ("g > -9223372036854775808 AND g < 9223372036854775807", ""),
    ("a = g", ""),
    ("a IS NULL", ""),
    ("s IS NOT NULL", ""),
    ("a > 0 OR a IS NULL AND b IS NOT NULL", ""),
    ("(((a > 0)) AND ((b < 5)))", "a > 0 AND b < 5"),
    ("(a > 0 AND b > 0) OR (a < 0 AND b < 0)", "a > 0 AND b > 0 OR a < 0 AND b < 0"),
    ("a > 0 AND (b = 1 OR b = 2)", "a > 0; b = 1 OR b = 2"),
    (
        "(b = 1 OR a = 1) AND s <> 'b' AND (a = 2 OR a = 1)",
        "s <> 'b'; b = 1 OR a = 1; a = 2 OR a = 1",
    ),
    ("a > 0 AND (b > 0 AND (a = 1 OR a = 2))", "a > 0 AND b > 0; a = 1 OR a = 2"),
    ("NOT a = 1", ""),
    ("NOT NOT a = 1", "a = 1"),
    ("NOT (a = 1 OR b = 2)", "NOT a = 1 AND NOT b = 2"),
    ("NOT (a > 1 AND (b > 2 OR s = 'a'))", "NOT a > 1 OR NOT b > 2 AND NOT s = 'a'"),
    ("a BETWEEN -1 AND 5", "", "a >= -1 AND a <= 5"),
    ("a NOT BETWEEN b AND 5", "", "a < b OR a > 5"),
    ("NOT a BETWEEN 1 AND b", "", "NOT a >= 1 OR NOT a <= b"),
    (
        "a BETWEEN 1 AND 5 OR b = 1 AND a BETWEEN 0 AND 3",
        "",
        "a >= 1 AND a <= 5 OR b = 1 AND a >= 0 AND a <= 3",
    ),
    ("a IN (1, 2, -5)", ""),
    ("a NOT IN (1, 2, NULL)", ""),
    ("b IN (1, a, 2)", "", "b IN (1, 2) OR b = a"),
    ("g IN (1, 2, 9999999999)", ""),
    ("s IN ('a', 'it''s', 'b\\c', '☃')", ""),
    ("s NOT IN ('a', 'A')", ""),
    ("NOT s IN ('a', 'b')", ""),
    ("s = 'a '", ""),
    ("v = 'a' OR v <> 'b'", ""),
    ("v IN ('a', 'x')", ""),
    ("v = s", ""),
    ("k > 'a'", ""),
    ("k BETWEEN 'B' AND 'b'", "", "k >= 'B' AND k <= 'b'"),
    ("k >= '\ufffd'", ""),
    ('"select" = \'a\' AND "it\'s, ""odd""" > 0', ""),
    ("s IN ('a')", "", "s = 'a'"),
    ("(a) = (5)", "a = 5"),
    ("a = NULL OR a IN (1, NULL)", ""),
]
CARRIED_SQLITE = [
    ("A == 7 or [b] = 5", "a = 7 OR b = 5"),
    ("`a` NOTNULL", "a IS NOT NULL"),
    ("a ISNULL OR b NOT NULL", "a IS NULL OR b IS NOT NULL"),
    ('s = "ab"', "s = 'ab'"),
    ('s <> "it\'s"', "s <> 'it''s'"),
    ('"a" = 1 /* CHECK (b = 2) */ AND -- )\n b=-5', "a = 1 AND b = -5"),
    ('own.a >= 3 AND "OWN".[b] <> 1', "a >= 3 AND b <> 1"),
    ("s COLLATE BINARY < 'a'", "s < 'a'"),
    ("c <> 'a '", ""),
    ("NOT a NOT IN (1, NULL)", ""),
]
CARRIED_POSTGRES = [
    ("c <> 'a  '", "c <> 'a'"),
    ("c IN ('a', 'b ', NULL)", "c IN ('a', 'b', NULL)"),
    ("c::text = 'a '", "c = 'a '"),
    ("c = s", ""),
    ("c > 'a '", "c > 'a'"),
    ("s COLLATE \"C\" < 'a'", "s < 'a'"),
    ("a::bigint > 2 AND a::integer < b", "a > 2 AND a < b"),
    ("a = ANY (ARRAY[1, 2])", "a IN (1, 2)"),
    ("s <> ALL (ARRAY['a', 'b'])", "s NOT IN ('a', 'b')"),
    ("a BETWEEN SYMMETRIC 5 AND 1", "a >= 5 AND a <= 1 OR a >= 1 AND a <= 5"),
]
# Domains, the column that has one, and what is written.
DOMAINS = [
    ("a", "smallint CHECK (VALUE > 0 AND VALUE < 5)", "a > 0 AND a < 5"),
    (
        "v",
        "varchar(9) CHECK (VALUE IN ('a', 'b') OR VALUE IS NULL)",
        "v IN ('a', 'b') OR v IS NULL",
    ),
    ("c", "char(3) CHECK (VALUE <> 'a ')", "c <> 'a'"),
    ('it\'s, "odd"', "integer CHECK (VALUE <> 2)", '"it\'s, ""odd""" <> 2'),
]


# A condition, and why it is left out: by both tools, or by from-sqlite and by from-postgres.
# Without a reason it is left out with its column.
LEFT: list[tuple[str, ...]] = [
    ("length(s) > 3", "calls length"),
    ("s LIKE 'a%'", "has the word LIKE", "has the operator ~~"),
    ("a + 1 > 2", "has the operator +"),
    ("a % 2 = 0 AND b > 0", "has the operator %"),
    ("-a > 0", "has the operator -"),
    ("a = 1 AND (b = 2 OR a = +b)", "has the operator +"),
    ("s || 'a' = 'b'", "has the operator ||"),
    ("a = 1 OR (b = 2 AND (a = 2 OR s = 'a'))", "needs parentheses"),
    ("NOT (a = 1 AND (b = 2 OR (a = 2 AND s = 'a')))", "needs parentheses"),
    ("(a > 0) = (b > 0)", "compares conditions"),
    ("CASE WHEN a > 0 THEN b > 0 ELSE b < 0 END", "has the word CASE"),
    ("a > 0.5", "has the number 0.5, which is not whole"),
    ("a IS DISTINCT FROM 3", "has the word DISTINCT"),
    ("coalesce(a, b) > 0", "calls coalesce", "calls COALESCE"),
    ("price > 0", ""),
    ("a > 0 OR price > 0.5", ""),
]
LEFT_SQLITE: list[tuple[str, ...]] = [
    ("a = 'x'", "compares a whole number with a text"),
    ("'5' BETWEEN s AND a", "compares a whole number with a text"),
    ("s IN ('a', 5)", "compares a whole number with a text"),
    ("s = a", "compares a whole number with a text"),
    ("a IN ()", "has a list of nothing"),
    ("s GLOB 'a*'", "has the word GLOB"),
    ("typeof(a) = 'integer'", "calls typeof"),
    ("\"typeof\"(a) = 'integer'", "calls typeof"),
    ("a", "is no comparison"),
    ("NOT a", "is no comparison"),
    ("a OR b = 1", "is no comparison"),
    ("a IS 5", "has a form that is not read"),
    ("(a, b) = (1, 2)", "has a form that is not read"),
    ("a > 0 = 1", "has the operator ="),
    ("a > 9223372036854775808", "has the number 9223372036854775808, which is past 64 bits"),
    ("a < 0x10", "has the number 0x10, which is not whole"),
    ("a < 1e-3", "has the number 1e-3, which is not whole"),
    ("a = true", "has the word true"),
    ("a = x'00'", "has the word x"),
    ('"rowid" = a', "names rowid, which is no column"),
    ("rowid = a", "has the word rowid"),
    ("n = 'a'", "compares texts otherwise than by their bytes"),
    ("n > 'a'", "orders texts otherwise than by their bytes"),
    ("'a' IN (s, n)", "compares texts otherwise than by their bytes"),
    ("s COLLATE NOCASE = 'a'", "compares texts otherwise than by their bytes"),
    ("s = 'a' COLLATE RTRIM", "compares texts otherwise than by their bytes"),
    ("s IN ('a' COLLATE NOCASE)", "has COLLATE in a list"),
    ("'a' < 'b'", "orders constants"),
    ("(" * 51 + "a" + ")" * 51 + " > 0", "is nested too deep"),
]
LEFT_POSTGRES: list[tuple[str, ...]] = [
    ("v::varchar(1) = 'x'", "casts to character varying(1)"),
    ("c::char(1) = 'x'", "casts to character(1)"),
    ("c = v", "casts to bpchar"),
    ("g::integer > 4", "casts to integer"),
    ("a::text = '5'", "casts to text"),
    ("a <> ANY (ARRAY[1, 2])", "has the word ANY"),
    ("a > ALL (ARRAY[1, 2])", "has the word ALL"),
    ("s = ANY ('{a,b}')", "has a form that is not read"),
    ("s ~ 'a'", "has the operator ~"),
    ("(a > 0) IS TRUE", "compares conditions"),
    ("flag", "is no comparison"),
    ("price > 0.5 AND length(s) > 3", ""),
]
# The table of these, and what is told before and after them.
OWN_LEFT = {
    Sqlite: (
        """CREATE TABLE 't' (a INTEGER, b INT, s TEXT, n TEXT DEFAULT ('x' COLLATE BINARY) COLLATE NOCASE,
                price REAL CONSTRAINT "a ""b"" c" CHECK (abs(a) > 2), {checks} CHECK (abs ( a ) > -- none
                3), UNIQUE (b) /* CHECK (a) */ CHECK ((abs([a])>4)));""",
        [
            ".price: left out: the type REAL is not read",
            ": left out: COLLATE; texts are compared by their bytes",
            ': left out: CHECK a "b" c, which calls abs',
        ],
        [
            ": left out: CHECK (abs ( a ) > 3), which calls abs",
            ": left out: CHECK ((abs([a])>4)), which calls abs",
        ],
    ),
    Postgres: (
        """CREATE DOMAIN short AS TEXT CHECK (length(VALUE) < 9);
                  CREATE DOMAIN share AS DOUBLE PRECISION CHECK (VALUE < 9);
                  CREATE TABLE t (a SMALLINT, b INTEGER, g BIGINT, s TEXT, v VARCHAR(9), c CHAR(3), flag BOOLEAN,
                    price share, d short, {checks});
                  ALTER TABLE t ADD CONSTRAINT old CHECK (a > 0) NOT VALID;""",
        [".flag: boolean becomes INTEGER: 0 and 1", ".price: left out: the type share is not read"],
        [
            ": left out: CHECK old, which is NOT VALID",
            ": left out with its column: CHECK share_check of price",
            ": left out: CHECK short_check of d, which calls length",
        ],
    ),
}

# Collations: a table, what is told after its name, and the CHECKs that are written.
COLLATIONS = {
    Sqlite: (
        """PRAGMA encoding = 'UTF-16be'; CREATE TABLE t (s TEXT CHECK (s > 'a') CHECK (s = 'a' OR s IN ('b', 'c'))
                  CHECK (s COLLATE BINARY > 'a') CHECK (s COLLATE BINARY <> 'a'));""",
        [
            ": left out: COLLATE; texts are compared by their bytes",
            ": left out: CHECK (s > 'a'), which orders texts otherwise than by their bytes",
            (
                ": left out: CHECK (s COLLATE BINARY > 'a'), which orders texts otherwise than by"
                " their bytes"
            ),
        ],
        ["s = 'a' OR s IN ('b', 'c')", "s <> 'a'"],
    ),
    Postgres: (
        """CREATE COLLATION same (provider = icu, locale = 'und', deterministic = false);
                  CREATE DOMAIN d AS TEXT COLLATE "und-x-icu" CHECK (VALUE > 'a');
                  CREATE DOMAIN e AS TEXT CHECK (VALUE > 'a');
                  CREATE TABLE t (i TEXT COLLATE "und-x-icu", s TEXT COLLATE same, p TEXT COLLATE "POSIX",
                    d d COLLATE "C", e e COLLATE same, CONSTRAINT n0 CHECK (i > 'a'),
                    CONSTRAINT n1 CHECK (i = 'a' OR i IN ('b', 'c')), CONSTRAINT n2 CHECK (s = 'a'),
                    CONSTRAINT n3 CHECK (i COLLATE "C" > 'a'), CONSTRAINT n4 CHECK (s COLLATE "C" IN ('a', 'b')),
                    CONSTRAINT n5 CHECK (p > 'a'), CONSTRAINT n6 CHECK (p COLLATE "und-x-icu" < 'a'),
                    CONSTRAINT n7 CHECK (s IS NOT NULL), CONSTRAINT n8 CHECK ('a'::text < 'b'));""",
        [
            ": left out: CHECK n0, which orders texts otherwise than by their bytes",
            ": left out: CHECK n2, which compares texts otherwise than by their bytes",
            ": left out: CHECK n6, which orders texts otherwise than by their bytes",
            ": left out: CHECK n8, which orders constants",
            ": left out: CHECK d_check of d, which orders texts otherwise than by their bytes",
        ],
        [
            "i = 'a' OR i IN ('b', 'c')",
            "i > 'a'",
            "s IN ('a', 'b')",
            "p > 'a'",
            "s IS NOT NULL",
            "e > 'a'",
        ],
    ),
}
