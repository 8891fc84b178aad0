SELECT c.name FROM customer c
WHERE NOT EXISTS (
  SELECT p.id FROM product p WHERE p.price < 5
  EXCEPT
  SELECT i.product FROM orders o JOIN item i ON i.orders = o.id WHERE o.customer = c.id)
