SELECT o.customer FROM orders o, orders p
WHERE o.customer = p.customer AND o.day <> p.day
