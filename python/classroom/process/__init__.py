"""Other processes: started within limits, many at once, on this machine or on others, and ended
with this one.

For others: `limits`, `isolation`, `jobs`, `pool`, `hosts`, `forkserver`, `lifeline`.
"""
