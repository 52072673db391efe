-- The next morning: what was ordered leaves the stock, if there is enough of it.
SELECT p.name, p.stock, SUM(i.pieces) FROM parts p, items i WHERE i.part = p.part GROUP BY p.name, p.stock HAVING SUM(i.pieces) > p.stock;
UPDATE parts SET stock = stock - 20 WHERE part = 3;
UPDATE parts SET stock = stock - 160 WHERE part = 1;
UPDATE parts SET stock = stock - 6 WHERE part = 4;
COMMIT;
SELECT name, stock FROM parts WHERE stock BETWEEN 0 AND 150 ORDER BY stock;

-- A CREATE waits for no one's transaction: it is refused while one is open, and done once it is closed.
CREATE INDEX parts_by_name ON parts (name);
COMMIT;
CREATE INDEX parts_by_name ON parts (name);

-- The customers whose town is not known, and how many orders go to each town.
SELECT name FROM customers WHERE town IS NULL;
SELECT c.town, COUNT(*) FROM customers c, orders o WHERE o.customer = c.customer GROUP BY c.town;
SELECT nam FROM customers;
