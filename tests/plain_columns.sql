-- Over a folder whose columns are PLAIN, as a projection may name its encoding; they stay so.
SELECT a FROM t;
INSERT INTO t VALUES (0), (NULL);
COMMIT;
SELECT a FROM t;
AT EPOCH 1 SELECT a FROM t;
