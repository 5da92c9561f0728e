-- A load file, what it holds, and what is changed of it.
CREATE TABLE sales (id INTEGER NOT NULL, day INTEGER NOT NULL, item VARCHAR(20), pieces INTEGER, price INTEGER, paid BOOLEAN);
CREATE PROJECTION sales_of_an_item (item ENCODING RLE, pieces, price) AS SELECT item, pieces, price FROM sales ORDER BY item, price;
COPY sales FROM 'sales.tbl';
SELECT COUNT(*) AS n, COUNT(pieces) AS known, SUM(pieces * price) AS turnover FROM sales;
SELECT item, COUNT(*) AS n, SUM(pieces) AS sold, MIN(price) AS least, MAX(price) AS most FROM sales GROUP BY item ORDER BY item;
SELECT id, pieces * price AS total FROM sales WHERE item = 'lamp' AND pieces > 50 ORDER BY total DESC, id LIMIT 5;
DELETE FROM sales WHERE pieces IS NULL;
UPDATE sales SET price = price - 1, paid = TRUE WHERE item = 'nut' AND paid IS NULL;
COMMIT;
SELECT COUNT(*) AS n, SUM(price) AS prices FROM sales WHERE paid;
AT EPOCH 1 SELECT COUNT(*) AS n FROM sales;
