SELECT c.name FROM customer c
WHERE NOT EXISTS (SELECT * FROM orders o WHERE o.customer = c.id)
