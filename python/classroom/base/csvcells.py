"""The one rule for the cells of every CSV file that is written."""
from __future__ import annotations

import re

# A formula's sign, also behind apostrophes, at the beginning or behind what some spreadsheet parts
# cells by; double quotes between are dropped by it.
BEGIN = r"""((?:^|[;,\t\r\n])"*)"""
SIGN = r"(?='*[=+\-@])"
FORMULA = re.compile(BEGIN + SIGN)
QUOTED = re.compile(f"{BEGIN}'{SIGN}")
ENDS = ("\t", "\r", "\n")


def safe(cell: str) -> str:
    """A cell that no spreadsheet runs, whichever sign it parts cells by: what it would take for a
    formula gets an apostrophe in front."""
    made = FORMULA.sub(r"\1'", cell)
    return f"'{made}" if made.lstrip("'").startswith(ENDS) else made


def restored(cell: str) -> str:
    """The cell that `safe` was given."""
    made = cell[1:] if cell.startswith("'") and cell.lstrip("'").startswith(ENDS) else cell
    return QUOTED.sub(r"\1", made)
