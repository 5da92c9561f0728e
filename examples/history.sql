-- What a reporting user asks first: the table as it was, and as it is now.
CREATE TABLE takings (shop VARCHAR(10) NOT NULL, euros INTEGER);
INSERT INTO takings VALUES ('mill', 120), ('harbour', 85), ('harbour', 40);
COMMIT;
INSERT INTO takings VALUES ('mill', -15), ('station', 200), ('station', NULL);
SELECT * FROM takings WHERE euros > 100;
COMMIT;
-- The first closed epoch knows nothing of the second commit.
AT EPOCH 1 SELECT shop, euros FROM takings ORDER BY euros;
AT EPOCH 2 SELECT shop, euros FROM takings ORDER BY euros;
AT EPOCH LATEST SELECT shop FROM takings WHERE euros IS NULL;
-- No epoch is closed after the second one.
AT EPOCH 3 SELECT euros FROM takings;
SELECT GET_CURRENT_EPOCH();
