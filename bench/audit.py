#!/usr/bin/env python3
"""An audit of a folder of 1,000,000 rows in two projections, beside queries that read all of it, in one run.

    bench/audit.py [ROWS]             default: 1000000
    VERT=PROGRAM bench/audit.py       with a program that is built already

The table has four columns (a key, a day of the year, a name of a shop, an amount), and stands by its key and, in three columns, by shop and
day; a tenth of the rows is deleted. It prints the processor seconds and the peak memory of the audit, of a query that reads each column of
both projections and prints one row for each, and of one that prints all rows.
"""
import os
import subprocess
import sys
import tempfile

TOP = os.path.dirname(os.path.dirname(os.path.abspath(__file__)))
VERT = os.environ.get('VERT') or os.path.join(TOP, 'crates/vert/out/vert')


def numbers(rows):
    x = 0
    for _ in range(rows):
        x = (6364136223846793005 * x + 1442695040888963407) % 2**64
        yield x >> 33


def measured(folder, *words):
    """Processor seconds and peak megabytes of the program with these words, over the folder `db`."""
    pid = os.fork()
    if pid == 0:
        os.chdir(folder)
        with open(os.devnull, 'w') as none:
            os.dup2(none.fileno(), 1)
            os.execv(VERT, [VERT, 'db', *words])
    _, status, used = os.wait4(pid, 0)
    if status:
        sys.exit(f'bench/audit.py: the program ended with {status} at {words}')
    return used.ru_utime + used.ru_stime, used.ru_maxrss / 1024


def script(folder, name, text):
    with open(os.path.join(folder, name), 'w') as file:
        file.write(text)
    return name


def made(folder, rows):
    parts = []
    for first in range(0, rows, 500_000):
        parts.append(f'load{first}.tbl')
        with open(os.path.join(folder, parts[-1]), 'w') as file:
            for i, y in zip(range(first, min(rows, first + 500_000)), numbers(rows)):
                file.write(f'{i}|{y % 365}|shop {y // 365 % 400}|{y % 9973}\n')
    loads = ' '.join(f"COPY sales FROM '{part}';" for part in parts)
    return script(folder, 'make.sql', f'''
        CREATE TABLE sales (id INTEGER NOT NULL, day INTEGER, shop VARCHAR(20), amount INTEGER);
        CREATE PROJECTION by_shop (shop, day, amount) AS SELECT shop, day, amount FROM sales ORDER BY shop, day;
        {loads} SELECT DO_TM_TASK('moveout'); DELETE FROM sales WHERE day < 36; COMMIT;
    ''')


def main():
    rows = int(sys.argv[1]) if len(sys.argv) > 1 else 1_000_000
    with tempfile.TemporaryDirectory() as folder:
        measured(folder, made(folder, rows))
        scan = script(folder, 'scan.sql', 'SELECT COUNT(*), SUM(id), SUM(day), MAX(shop), SUM(amount) FROM sales; SELECT COUNT(*), SUM(day), MAX(shop), SUM(amount) FROM sales;')
        rows_out = script(folder, 'rows.sql', 'SELECT * FROM sales;')
        for what, words in (('audit', ['--audit']), ('a query over all columns of both projections', [scan]), ('all rows printed', [rows_out])):
            runs = [measured(folder, *words) for _ in range(3)]
            print(f'{what}: {min(run[0] for run in runs):.2f} s, {max(run[1] for run in runs):.0f} MB')
        told = subprocess.run([VERT, os.path.join(folder, 'db'), '--audit'], stdout=subprocess.PIPE, text=True)
        print(told.stdout, end='')


if __name__ == '__main__':
    main()
