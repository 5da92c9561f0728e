-- What waits for COMMIT is seen by a plain SELECT and by no SELECT at an epoch. ROLLBACK drops it, and so does the end of the script.
CREATE TABLE readings (sensor VARCHAR(8), celsius INTEGER);
INSERT INTO readings VALUES ('roof', -4), ('cellar', 21);
SELECT celsius FROM readings WHERE sensor = 'roof';
AT EPOCH 0 SELECT celsius FROM readings;
ROLLBACK;
SELECT * FROM readings;
COMMIT;
INSERT INTO readings VALUES ('roof', -3);
SELECT * FROM readings;
