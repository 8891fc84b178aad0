"""What can be found of an answer: the kinds of verdict, how two results are compared, and the
sentences for each.

For others: `verdict`, `compare`, `sentences`, `witness`.
"""
