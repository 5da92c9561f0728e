-- The sales of a quarter: what a reporting user asks of one table, with the rows that have no price yet.
CREATE TABLE sales (
    day INTEGER NOT NULL, -- as 20260131
    region VARCHAR(12) NOT NULL,
    article VARCHAR(20),
    pieces INTEGER NOT NULL,
    cents INTEGER, -- of one piece
    returned BOOLEAN
);
INSERT INTO sales VALUES
    (20260105, 'north', 'lamp', 3, 4500, FALSE),
    (20260105, 'south', 'cable', 40, 250, FALSE),
    (20260112, 'north', 'cable', 15, 250, TRUE),
    (20260203, 'north', 'switch', 7, 1290, FALSE),
    (20260214, 'south', 'lamp', 1, 4500, TRUE),
    (20260301, 'west', 'switch', 12, NULL, NULL),
    (20260302, 'north', 'lamp', 2, 4300, NULL);
COMMIT;
-- What the north sold, the greatest first.
SELECT day, article, pieces * cents AS total FROM sales WHERE region = 'north' AND NOT returned ORDER BY total DESC;
-- The three greatest of all regions, returned or not.
SELECT region, day, pieces * cents AS total FROM sales WHERE cents IS NOT NULL ORDER BY total DESC, region LIMIT 3;
-- What isn't known to be kept or returned.
SELECT day, region, article FROM sales WHERE returned IS NULL;
-- Lamps and switches of the first two months, without those of no price.
SELECT * FROM sales WHERE article IN ('lamp', 'switch') AND day BETWEEN 20260101 AND 20260228 AND cents * pieces > 5000;
-- A comparison of a text with a number is refused before it runs.
SELECT day FROM sales WHERE article = 7;
