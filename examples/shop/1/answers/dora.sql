SELECT nmae FROM customer WHERE id NOT IN (SELECT customer FROM orders)
