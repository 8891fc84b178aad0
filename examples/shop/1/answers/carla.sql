SELECT c.name FROM customer c, orders o WHERE o.customer <> c.id
