SELECT p.name FROM product p, product q WHERE p.price > q.price
