"""What everything else stands on: faults told in one line, files read and written safely, messages.

For others: `errors`, `files`, `log`.
"""
