"""From a class's answers to verdicts, and the files that keep them.

For others: `open`, `grades`, `trials`, `store`.
"""
