SELECT customer FROM orders GROUP BY customer HAVING COUNT(*) > 1
