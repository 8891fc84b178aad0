"""The launcher of the repository's programs: which build answers, and how each is made."""
