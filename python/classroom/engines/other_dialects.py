"""Which other dialect of SQL reads a text that an engine refuses, as sqlglot knows dialects."""
from __future__ import annotations

import re
from typing import Any

from classroom.base.errors import Missing, library
from classroom.sql.lookup import is_cut

# By sqlglot's word, the first that reads a text is named.
DIALECTS = {
    "postgres": "PostgreSQL",
    "mysql": "MySQL",
    "tsql": "T-SQL",
    "oracle": "Oracle",
    "sqlite": "SQLite",
}
PRODUCTS = {"sqlite": "sqlite", "postgresql": "postgres"}
# Functions that sqlglot has no class for.
FUNCTIONS = {
    "PostgreSQL": frozenset(
        "age array_to_string ascii bit_length bool_and bool_or btrim cbrt char_length"
        " character_length chr clock_timestamp concat_ws corr date_part date_trunc div every"
        " gcd greatest initcap isfinite justify_days lcm least left lpad make_date md5 mode now"
        " overlay percentile_cont percentile_disc pi position quote_ident quote_literal"
        " regexp_match regexp_matches regexp_replace regexp_split_to_array repeat reverse right"
        " rpad split_part starts_with stddev_pop stddev_samp string_agg string_to_array strpos"
        " substring timeofday to_char to_date to_number to_timestamp translate trunc unnest"
        " var_pop var_samp width_bucket generate_series log ln sqrt power exp ceil floor".split()
    ),
    "MySQL": frozenset(
        "curdate curtime date_add date_format date_sub datediff dayname dayofmonth dayofweek"
        " dayofyear elt field find_in_set from_days group_concat hour if lcase locate mid minute"
        " month monthname quarter second str_to_date timestampdiff to_days truncate ucase week"
        " weekday year".split()
    ),
    "T-SQL": frozenset(
        "charindex choose convert dateadd datename datepart day eomonth getdate isnull len"
        " patindex replicate square stuff try_cast try_convert".split()
    ),
    "Oracle": frozenset(
        "add_months decode instr last_day listagg months_between next_day nvl nvl2 rownum"
        " sysdate systimestamp to_clob".split()
    ),
}


def reader_of(text: str, product: str) -> str:
    """The name of a dialect, other than the engine's, that reads the text; "" where none does, and
    a Fault of kind Missing without sqlglot."""
    sqlglot: Any = library("sqlglot", "python3-sqlglot")
    if is_cut(text):
        return ""
    for word, name in DIALECTS.items():
        if word == PRODUCTS.get(product):
            continue
        try:
            if len(sqlglot.parse(text, read=word)) == 1:
                return name
        except RecursionError:
            raise
        except (
            sqlglot.errors.SqlglotError,
            RuntimeError,  # where a text or a comment has no end
            LookupError,
            ValueError,
            TypeError,
            AttributeError,
        ):
            pass
    return ""


def has_function(name: str) -> str:
    """The name of a dialect that has a function of this name; "" where none is known."""
    for dialect, known in FUNCTIONS.items():
        if name.lower() in known:
            return dialect
    try:
        parser: Any = library("sqlglot", "python3-sqlglot").parser
    except Missing:
        return ""
    return "another dialect" if name.upper() in parser.Parser.FUNCTIONS else ""


def is_of_syntax(message: str) -> bool:
    """Whether an engine's message says that it can't parse a text."""
    return any(
        word in message
        # The last is PostgreSQL's, of LIMIT 0, 2.
        for word in (
            "syntax error",
            "incomplete input",
            "unrecognized token",
            "syntax is not supported",
        )
    )


# As SQLite and PostgreSQL name a function that they don't have.
NO_FUNCTION = re.compile(r"no such function: (\w+)\Z|function (\w+)\(.*\) does not exist\Z")


def function_in(message: str) -> str:
    """The function that a message says isn't there; "" where it says something else."""
    found = NO_FUNCTION.match(message)
    return (found[1] or found[2]) if found else ""
