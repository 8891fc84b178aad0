SELECT c.name FROM customer c
WHERE EXISTS (
  SELECT * FROM orders o, item i, product p
  WHERE o.customer = c.id AND i.orders = o.id AND i.product = p.id AND p.price < 5)
