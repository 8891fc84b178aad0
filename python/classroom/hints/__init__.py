"""Where an answer's mistake is: the smallest change after which it agrees, and what a student is
told of it.

For others: `find_mistakes`, `mistake`, `steps`, `ask_children`.
"""
