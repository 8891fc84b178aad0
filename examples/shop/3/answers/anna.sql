SELECT c.name, (SELECT COUNT(*) FROM orders o WHERE o.customer = c.id)
FROM customer c
