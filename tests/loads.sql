-- Load files: their rows, and why one isn't loaded. What was pending is committed with the rows.
CREATE TABLE orders (id INTEGER NOT NULL, item VARCHAR(8), paid BOOLEAN);
COPY orders FROM 'load_files/orders.tbl';
SELECT * FROM orders;
-- The first wrong field of the first wrong row, both from 1.
COPY orders FROM 'load_files/long_text.tbl';
COPY orders FROM 'load_files/short_row.tbl';
COPY orders FROM 'load_files/long_row.tbl';
COPY orders FROM 'load_files/null.tbl';
COPY orders FROM 'load_files/absent.tbl';
COPY nothing FROM 'load_files/absent.tbl';
COPY orders FROM '';
-- A COPY that is refused leaves pending rows as they are.
INSERT INTO orders VALUES (10, 'pending', NULL);
COPY orders FROM 'load_files/long_text.tbl';
SELECT id FROM orders WHERE id > 6;
AT EPOCH LATEST SELECT id FROM orders WHERE id > 6;
COPY orders FROM 'load_files/one.tbl';
AT EPOCH LATEST SELECT id FROM orders WHERE id > 6;
ROLLBACK;
SELECT id FROM orders WHERE id > 6;
-- A file without rows closes no epoch, unless something was pending.
COPY orders FROM 'load_files/empty.tbl';
INSERT INTO orders VALUES (12, NULL, NULL);
COPY orders FROM 'load_files/empty.tbl';
SELECT GET_CURRENT_EPOCH();
-- What another session has pending isn't in its way, and stays pending.
\session 2;
INSERT INTO orders VALUES (13, NULL, NULL);
\session 1;
COPY orders FROM 'load_files/one.tbl';
SELECT COUNT(*) FROM orders;
\session 2;
COMMIT;
SELECT COUNT(*) FROM orders;
