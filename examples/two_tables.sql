-- Two counters side by side: a commit closes one epoch for all tables.
CREATE TABLE visits (people INTEGER);
CREATE TABLE orders_made (pieces INTEGER);
INSERT INTO visits VALUES (17), (42);
INSERT INTO orders_made VALUES (3);
COMMIT;
INSERT INTO orders_made VALUES (8), (1);
COMMIT;
AT EPOCH 1 SELECT pieces FROM orders_made;
AT EPOCH 2 SELECT pieces FROM orders_made;
AT EPOCH 2 SELECT people FROM visits;
