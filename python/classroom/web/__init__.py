"""The page on which students ask, and what a teacher sees of it.

For others: `server`, `questions`, `asked_page`.
"""
