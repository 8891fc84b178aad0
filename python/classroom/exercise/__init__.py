"""What an exercise folder has: tasks, answers, settings, its rows, and what makes a part of the
rows lawful.

For others: `exercise`, `settings`, `window`, `material`, `rows`, `sources`, `parts`, `cells`;
`importing` makes such a folder from a database. """
