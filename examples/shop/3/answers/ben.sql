SELECT c.name, COUNT(o.id)
FROM customer c JOIN orders o ON o.customer = c.id
GROUP BY c.id, c.name
