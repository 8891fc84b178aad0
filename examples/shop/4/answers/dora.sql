SELECT o.customer FROM orders o, orders p
WHERE o.customer = p.customer AND o.id <> p.id
