#!/usr/bin/env python3
"""Writes what crates/load_cases has to print: the generated script, and the loads of the counts and seeds of its standard input.

tools/load_cases.py < crates/load_cases/stdin > crates/load_cases/stdout
"""
import sys

SCRIPT = [
    "CREATE TABLE orders (id INTEGER NOT NULL, region VARCHAR(8), qty INTEGER, price INTEGER);",
    "CREATE PROJECTION orders_region (region ENCODING RLE, qty, price)",
    "  AS SELECT region, qty, price FROM orders ORDER BY region, qty;",
    "COPY orders FROM '@gen';",
    "SELECT DO_TM_TASK('moveout');",
    "DELETE FROM orders WHERE qty = 0;",
    "COMMIT;",
    "SELECT region, COUNT(*), SUM(qty * price) FROM orders GROUP BY region;",
    "AT EPOCH 1 SELECT COUNT(*) FROM orders;",
]


def load(lines, seed):
    x = seed
    for i in range(1, lines + 1):
        x = (6364136223846793005 * x + 1442695040888963407) % 2**64
        y = x >> 33
        yield f"{i}|{['north', 'south', 'east', 'west'][y % 4]}|{y // 4 % 10}|{y // 40 % 10000}"


for line in SCRIPT:
    print(line)
for case in sys.stdin:
    lines, seed = map(int, case.split())
    for line in load(lines, seed):
        print(line)
