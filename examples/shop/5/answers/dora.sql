SELECT c.name FROM customer c
WHERE NOT EXISTS (
  SELECT * FROM orders o, product p
  WHERE o.customer = c.id AND p.price < 5 AND NOT EXISTS (
    SELECT * FROM item i
    WHERE i.orders = o.id AND i.product = p.id))
