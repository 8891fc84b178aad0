-- Wrong: at least one.
SELECT bar FROM serves
