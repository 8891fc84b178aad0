"""From the archive of a platform to answers, and from marks to what a platform takes back.

For others: `collect`, `tables`.
"""
