-- A statement that can't be served is refused on a line of its own; the script goes on, and its exit status is 1.
CREATE TABLE stock (pieces INTEGER);
CREATE TABLE stock (pieces INTEGER);
INSERT INTO stock VALUES (9223372036854775807), (0);
INSERT INTO stock VALUES (9223372036854775808);
SELECT pieces FROM stick;
COMMIT;
AT EPOCH 7 SELECT pieces FROM stock;
select PIECES from Stock; -- words are read without regard to case
