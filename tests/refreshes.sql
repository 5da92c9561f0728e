-- A refresh that goes on one column a step, with rows and deletes that come between its steps.
CREATE TABLE t (a INTEGER, b VARCHAR(8), c INTEGER, d INTEGER);
INSERT INTO t VALUES (1, 'one', 10, 100), (2, 'two', 20, 200), (3, 'three', 30, 300), (4, 'four', 40, 400), (5, 'five', NULL, 500), (6, 'six', 60, 600);
COMMIT;
DELETE FROM t WHERE a = 6;
COMMIT;
SELECT DO_TM_TASK('moveout');
INSERT INTO t VALUES (7, 'seven', 70, 700), (8, NULL, 80, 800);
COMMIT;
CREATE PROJECTION q (c, b) AS SELECT c, b FROM t ORDER BY b;
SELECT START_REFRESH();
-- A moveout, and the begin.
\step;
\step;
-- The files of the two columns and of the epochs.
\step;
DELETE FROM t WHERE a = 2;
COMMIT;
\step;
INSERT INTO t VALUES (9, 'nine', 90, 900), (10, 'ten', 100, 1000), (11, 'four', 40, 1100);
COMMIT;
\step;
DELETE FROM t WHERE a = 9 OR a = 7;
COMMIT;
EXPLAIN SELECT c, b FROM t;
-- The last step.
\step;
EXPLAIN SELECT c, b FROM t;
SELECT c, b FROM t ORDER BY b, c;
SELECT a, c, b FROM t ORDER BY b, c;
AT EPOCH 1 SELECT c, b FROM t ORDER BY b, c;
AT EPOCH 2 SELECT c, b FROM t ORDER BY b, c;
AT EPOCH 3 SELECT c, b FROM t ORDER BY b, c;
AT EPOCH 4 SELECT c, b FROM t ORDER BY b, c;
AT EPOCH 5 SELECT c, b FROM t ORDER BY b, c;
AT EPOCH 6 SELECT c, b FROM t ORDER BY b, c;
SELECT GET_LAST_GOOD_EPOCH();
-- A table that is made between two steps: what was written is given up, and the last step makes all.
CREATE PROJECTION r (d, a) AS SELECT d, a FROM t ORDER BY d;
SELECT START_REFRESH();
\step;
\step;
\step;
\step;
CREATE TABLE u (a INTEGER);
\step;
\step;
\step;
\step;
\step;
\step;
EXPLAIN SELECT d, a FROM t;
SELECT d, a FROM t ORDER BY d;
AT EPOCH 4 SELECT d, a FROM t ORDER BY d;
