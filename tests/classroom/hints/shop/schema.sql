CREATE TABLE customer (id INTEGER PRIMARY KEY, name TEXT NOT NULL, city TEXT, referrer INTEGER REFERENCES customer);
CREATE TABLE product (id INTEGER PRIMARY KEY, name TEXT NOT NULL, category TEXT, price INTEGER CHECK (price > 0), stock INTEGER NOT NULL);
CREATE TABLE orders (id INTEGER PRIMARY KEY, customer INTEGER NOT NULL REFERENCES customer, day INTEGER, status TEXT);
CREATE TABLE item (orders INTEGER REFERENCES orders, product INTEGER REFERENCES product, quantity INTEGER CHECK (quantity > 0), PRIMARY KEY (orders, product));
