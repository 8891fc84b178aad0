SELECT p.name FROM product p
WHERE NOT EXISTS (SELECT * FROM product q WHERE q.price >= p.price)
