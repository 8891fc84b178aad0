"""The fixtures of the tests in this folder."""
from packed import beers, copy, packages

__all__ = ["beers", "copy", "packages"]
