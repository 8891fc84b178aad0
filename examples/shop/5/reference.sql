SELECT c.name FROM customer c
WHERE NOT EXISTS (
  SELECT * FROM product p
  WHERE p.price < 5 AND NOT EXISTS (
    SELECT * FROM orders o, item i
    WHERE o.customer = c.id AND i.orders = o.id AND i.product = p.id))
