"""Who the students of a class are.

For others: `roster`.
"""
