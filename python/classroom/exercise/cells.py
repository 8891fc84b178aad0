"""The values of a row as a database has them, and as JSON."""
from __future__ import annotations

from collections.abc import Sequence
from typing import Any, Union

Cell = Union[None, int, float, str, bytes]
Cells = tuple[Cell, ...]


def encoded(value: Any) -> Any:
    """A value of JSON; bytes become an object, and so do classes."""
    if isinstance(value, bytes):
        return {"hex": value.hex()}
    if hasattr(value, "__dataclass_fields__"):
        return {name: encoded(getattr(value, name)) for name in value.__dataclass_fields__}
    if isinstance(value, (tuple, list)):
        return [encoded(one) for one in value]
    return value


def cell(value: Any) -> Cell:
    if isinstance(value, dict):
        return bytes.fromhex(value["hex"])
    if value is None or isinstance(value, (int, float, str)):
        return value
    raise ValueError("no cell")


def cells(values: Sequence[Any]) -> Cells:
    return tuple(map(cell, values))
