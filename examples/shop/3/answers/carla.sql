SELECT c.name, COUNT(*)
FROM customer c LEFT JOIN orders o ON o.customer = c.id
GROUP BY c.id, c.name
