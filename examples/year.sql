-- A year of sales by day and shop: a load, reports by month and by day, a correction, what was reported before it, and the past given up.
CREATE TABLE shops (shop INTEGER NOT NULL, town VARCHAR(20) NOT NULL, opened DATE);
CREATE TABLE sales (day DATE NOT NULL, shop INTEGER NOT NULL, amount INTEGER NOT NULL);
CREATE PROJECTION sales_by_shop (shop, day, amount) AS SELECT shop, day, amount FROM sales ORDER BY shop, day;
INSERT INTO shops VALUES (1, 'Bath', DATE '2019-05-01'), (2, 'York', DATE '2021-11-15'), (3, 'Leeds', NULL);
COMMIT;
COPY sales FROM 'year.tbl';
SELECT COUNT(*) AS days, MIN(day), MAX(day), SUM(amount) FROM sales;
-- February by town, the best first
SELECT s.town, COUNT(*) AS days, SUM(v.amount) AS total FROM sales AS v JOIN shops AS s ON v.shop = s.shop
  WHERE v.day BETWEEN DATE '2024-02-01' AND DATE '2024-02-29' GROUP BY s.town ORDER BY total DESC;
-- the three best days of the year
SELECT day, SUM(amount) AS total FROM sales GROUP BY day ORDER BY total DESC LIMIT 3;
-- the days around Christmas of one shop are read from the projection that stands by shop
EXPLAIN SELECT day, amount FROM sales WHERE shop = 2 AND day >= DATE '2024-12-24';
SELECT day, amount FROM sales WHERE shop = 2 AND day >= DATE '2024-12-24';
-- shops that sold before they were opened, or whose day of opening isn't known
SELECT town, opened FROM shops WHERE opened IS NULL OR opened > DATE '2024-01-01';
-- a correction, and what stood there before it
UPDATE sales SET amount = 0 WHERE shop = 3 AND day = DATE '2024-06-03';
COMMIT;
SELECT amount FROM sales WHERE shop = 3 AND day = DATE '2024-06-03';
AT EPOCH 2 SELECT amount FROM sales WHERE shop = 3 AND day = DATE '2024-06-03';
-- once the books are closed, the past may go
SELECT DO_TM_TASK('moveout');
SELECT MAKE_AHM_NOW();
AT EPOCH 2 SELECT amount FROM sales WHERE shop = 3 AND day = DATE '2024-06-03';
