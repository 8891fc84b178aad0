"""The fixture of the tests in this folder."""
from small_repository import repository

__all__ = ["repository"]
