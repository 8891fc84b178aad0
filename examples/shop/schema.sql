CREATE TABLE customer (
  id INTEGER PRIMARY KEY,
  name TEXT NOT NULL,
  city TEXT
);

CREATE TABLE product (
  id INTEGER PRIMARY KEY,
  name TEXT NOT NULL UNIQUE,
  price INTEGER NOT NULL CHECK (price > 0)
);

CREATE TABLE orders (
  id INTEGER PRIMARY KEY,
  customer INTEGER NOT NULL REFERENCES customer (id),
  day TEXT NOT NULL
);

CREATE TABLE item (
  orders INTEGER REFERENCES orders (id),
  product INTEGER REFERENCES product (id),
  amount INTEGER NOT NULL CHECK (amount BETWEEN 1 AND 99),
  PRIMARY KEY (orders, product)
);
