SELECT customer FROM orders GROUP BY customer HAVING COUNT(DISTINCT day) > 1
