"""Changes of a query at one place, the cheapest first: of them mutants and hints are made.

For others: `edits`, `change`, `vocabulary`, `families`.
"""
