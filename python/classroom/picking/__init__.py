"""Few rows out of many, that still show the usual mistakes.

For others: `pick`.
"""
