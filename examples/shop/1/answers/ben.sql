SELECT c.name
FROM customer c LEFT JOIN orders o ON o.customer = c.id
WHERE o.id IS NULL
