"""How many points a student has.

For others: `gradebook`, `matrix`.
"""
