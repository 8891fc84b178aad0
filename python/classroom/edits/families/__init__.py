"""Families of changes, one module each.

A family says in its head what it changes and why students make it. Its functions give for a node of
a query's tree the changes there. """
from __future__ import annotations

from collections.abc import Callable, Iterator

from classroom.edits.change import Change
from classroom.edits.families import aggregates
from classroom.edits.families import columns
from classroom.edits.families import comparisons
from classroom.edits.families import conditions
from classroom.edits.families import constants
from classroom.edits.families import duplicates
from classroom.edits.families import empty
from classroom.edits.families import grouping
from classroom.edits.families import joins
from classroom.edits.families import logic
from classroom.edits.families import nulls
from classroom.edits.families import operands
from classroom.edits.families import ordering
from classroom.edits.families import outer
from classroom.edits.families import projection
from classroom.edits.families import quantifiers
from classroom.edits.families import sets
from classroom.edits.families import tables
from classroom.edits.query import Query
from classroom.sql.tree import Node

Family = Callable[[Node, Query], Iterator[Change]]

# The usual mistakes in a right query.
MISTAKES: tuple[Family, ...] = (
    comparisons.changes,
    logic.changes,
    constants.changes,
    columns.changes,
    joins.changes,
    nulls.changes,
    sets.changes,
    projection.changes,
)
# What may make a wrong query right, the mistakes among it; they need a vocabulary.
REPAIRS: tuple[Family, ...] = (
    *(family for family in MISTAKES if family is not columns.changes),
    columns.related,
    columns.of_other_tables,
    constants.others,
    nulls.allowed,
    logic.grouped,
    joins.as_exists,
    conditions.changes,
    conditions.whole,
    tables.changes,
    quantifiers.changes,
    sets.operands,
    operands.changes,
    projection.added,
)
# What may make the reference the wrong query.
CLASSES: tuple[Family, ...] = (*REPAIRS, empty.changes)
# The usual mistakes beyond the proved language, whose queries a database tries; those of duplicates
# and of order where these count.
TRIED: tuple[Family, ...] = (aggregates.changes, grouping.changes, outer.changes, ordering.limited)
# What may make a wrong one of these right.
TRIED_REPAIRS: tuple[Family, ...] = (*TRIED, aggregates.counted)
BAGS: tuple[Family, ...] = (duplicates.changes,)
LISTS: tuple[Family, ...] = (ordering.changes,)
# What may make a list right.
ORDERED: tuple[Family, ...] = (*LISTS, ordering.limited, ordering.added)
