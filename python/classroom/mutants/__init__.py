"""The usual mistakes made in a reference, and what tells them from it.

For others: `mutants`, `proofs`, `mutant_trials`, `mutants_csv`.
"""
