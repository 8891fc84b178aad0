"""From a school's database to a graded class: what `./classroom` is made of."""
