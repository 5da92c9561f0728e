-- Amounts are booked, and a correction is booked as a negative amount; what was reported before stays what it was.
CREATE TABLE payments (cents INTEGER);
INSERT INTO payments VALUES (1999), (2500), (1999);
COMMIT;
-- One payment of 1999 was booked twice.
INSERT INTO payments VALUES (-1999);
COMMIT;
SELECT cents FROM payments;
AT EPOCH 1 SELECT cents FROM payments;
-- A commit of nothing closes no epoch.
COMMIT;
