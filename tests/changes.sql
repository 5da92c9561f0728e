-- DELETE and UPDATE: what is matched, what another session sees, and who holds the table.
CREATE TABLE stock (id INTEGER NOT NULL, item VARCHAR(8), amount INTEGER, sold BOOLEAN);
CREATE PROJECTION by_item (item ENCODING RLE, amount) AS SELECT item, amount FROM stock ORDER BY item, amount;
INSERT INTO stock VALUES (1, 'nut', 10, FALSE), (2, 'nut', 10, FALSE), (3, 'bolt', 5, NULL), (4, NULL, NULL, TRUE);
COMMIT;
-- A condition that is unknown matches nothing.
DELETE FROM stock WHERE amount > 100;
DELETE FROM stock WHERE sold AND amount = 1;
UPDATE stock SET amount = amount + 1 WHERE item = 'nut';
-- Pending rows are seen, matched and changed as committed ones are.
INSERT INTO stock VALUES (5, 'nut', 10, TRUE);
UPDATE stock SET amount = amount * 2, item = 'nuts' WHERE item = 'nut';
SELECT id, item, amount FROM stock;
\session 2;
SELECT id, item, amount FROM stock;
UPDATE stock SET amount = 0;
DELETE FROM stock;
INSERT INTO stock VALUES (6, 'cap', 1, TRUE);
DROP TABLE stock;
\session 1;
COMMIT;
SELECT item, amount FROM stock;
-- Each projection has the change; so have those that are moved out before the next.
SELECT DO_TM_TASK('moveout');
DELETE FROM stock WHERE item = 'nuts' AND amount = 22;
SELECT item, amount FROM stock;
SELECT * FROM stock;
ROLLBACK;
SELECT item, amount FROM stock;
DELETE FROM stock WHERE id = 5;
DELETE FROM stock WHERE id = 5;
COMMIT;
-- The past is as it was.
AT EPOCH 1 SELECT * FROM stock;
AT EPOCH 2 SELECT item, amount FROM stock;
AT EPOCH 3 SELECT item, amount FROM stock;
-- A row that is put back is another row.
INSERT INTO stock VALUES (5, 'nuts', 20, TRUE);
DELETE FROM stock WHERE id = 5;
COMMIT;
SELECT GET_CURRENT_EPOCH();
UPDATE stock SET id = id, id = 2;
UPDATE stock SET other = 2;
UPDATE stock SET amount = sold;
UPDATE stock SET amount = 9223372036854775807 + id;
UPDATE stock SET item = 'too long a word', id = NULL WHERE id = 1;
UPDATE stock SET id = NULL WHERE id = 1;
UPDATE stock SET id = NULL WHERE id = 77;
UPDATE other SET id = 1;
DELETE FROM other;
DELETE FROM stock WHERE amount;
DELETE FROM stock WHERE by_item;
DELETE FROM stock;
COMMIT;
SELECT COUNT(*) FROM stock;
AT EPOCH 3 SELECT COUNT(*) FROM stock;
