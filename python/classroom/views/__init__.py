"""What a student and what a teacher see: values made from verdicts, and the templates that show
them.

For others: `for_student`, `for_teacher`, `draw`, `markdown`.
"""
