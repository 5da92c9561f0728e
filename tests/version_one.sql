-- Over a folder whose catalogue is of version 1 of the format (tools/made_folders.py): every encoding, a delete, two projections.
SELECT k, s, b, d FROM t;
SELECT s, k FROM t WHERE s >= 'e';
AT EPOCH 1 SELECT k, s FROM t;
SELECT GET_LAST_GOOD_EPOCH();
INSERT INTO t VALUES (6, 'fir', NULL, DATE '2024-03-01');
DELETE FROM t WHERE s = 'oak' AND k > 1;
COMMIT;
SELECT DO_TM_TASK('moveout');
SELECT k, s, b, d FROM t;
SELECT s, k FROM t;
AT EPOCH 1 SELECT k, s FROM t;
