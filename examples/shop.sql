-- The books of a small firm: parts on stock, customers, and what they have ordered. Prices are in cents.
CREATE TABLE parts (
  part INTEGER PRIMARY KEY,
  name VARCHAR(30) NOT NULL,
  price INTEGER NOT NULL,
  stock INTEGER NOT NULL
);
CREATE TABLE customers (customer INTEGER PRIMARY KEY, name VARCHAR(40) NOT NULL, town VARCHAR(30));
CREATE TABLE orders (id INTEGER PRIMARY KEY, customer INTEGER NOT NULL, day CHAR(10) NOT NULL);
CREATE TABLE items (id INTEGER, part INTEGER, pieces INTEGER NOT NULL, PRIMARY KEY (id, part));
CREATE INDEX orders_by_customer ON orders (customer);

INSERT INTO parts VALUES (1, 'bolt M6', 12, 4000);
INSERT INTO parts VALUES (2, 'nut M6', 7, 5200);
INSERT INTO parts VALUES (3, 'hinge', 385, 140);
INSERT INTO parts VALUES (4, 'drawer runner', 1290, 24);
INSERT INTO customers VALUES (1, 'Meyer joinery', 'Ulm');
INSERT INTO customers VALUES (2, 'Stern & sons', 'Passau');
INSERT INTO customers VALUES (3, 'Frida Holm', NULL);
COMMIT;

-- Two orders.
INSERT INTO orders VALUES (1, 1, '1995-03-06');
INSERT INTO items VALUES (1, 3, 20);
INSERT INTO items VALUES (1, 1, 160);
INSERT INTO orders VALUES (2, 3, '1995-03-07');
INSERT INTO items VALUES (2, 4, 6);
COMMIT;

-- A number that is taken: the statement is refused, and the transaction goes on.
INSERT INTO orders VALUES (2, 2, '1995-03-07');
INSERT INTO orders VALUES (3, 2, '1995-03-07');
INSERT INTO items VALUES (3, 4, 30);
COMMIT;

-- What each order costs, the dearest first.
SELECT o.id, c.name, SUM(i.pieces * p.price)
FROM orders o, customers c, items i, parts p
WHERE o.customer = c.customer AND i.id = o.id AND p.part = i.part
GROUP BY o.id, c.name
ORDER BY 3 DESC;

-- A slip: the WHERE was forgotten. ROLLBACK gives the rows back.
DELETE FROM items;
SELECT COUNT(*) FROM items;
ROLLBACK;
SELECT COUNT(*) FROM items;
COMMIT;
