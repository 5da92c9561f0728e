#!/usr/bin/env python3
"""Writes examples/sales.tbl, a load file of 4,000 lines, examples/sales.sql, which loads it and asks, and what that prints.

    tools/load_example.py

Queries are answered by sqlite3 over the same rows.
"""
import os
import random
import sqlite3

HERE = os.path.join(os.path.dirname(os.path.abspath(__file__)), '..', 'examples')
ITEMS = ['bolt', 'nut', 'washer', 'lamp', 'cable', 'plug', 'hinge "small"', 'pipe | long']
random.seed(7)


def field(value):
    if value is None:
        return ''
    text = str(value)
    return '"%s"' % text.replace('"', '""') if any(c in text for c in '|"\r\n') else text


def rows():
    for number in range(1, 4001):
        item = random.choice(ITEMS)
        pieces = None if number % 97 == 0 else random.randrange(1, 60)
        paid = random.choice(['t', 'f', ''])
        yield number, 20230101 + random.randrange(0, 28), item, pieces, random.randrange(5, 900), paid


ROWS = list(rows())
peer = sqlite3.connect(':memory:')
peer.execute('CREATE TABLE sales (id INTEGER, day INTEGER, item TEXT, pieces INTEGER, price INTEGER, paid INTEGER)')
peer.executemany('INSERT INTO sales VALUES (?, ?, ?, ?, ?, ?)', [(*row[:5], {'t': 1, 'f': 0, '': None}[row[5]]) for row in ROWS])
script, printed = [], []


def say(statement, *answers):
    script.append(statement + ';')
    printed.extend(answers)


def ask(query):
    found = peer.execute(query).fetchall()
    say(query, *['|'.join(field(v) for v in row) for row in found], '(%d rows)' % len(found))


def change(statement):
    say(statement, '%s %d' % (statement.split()[0], peer.execute(statement).rowcount))


script.append('-- A load file, what it holds, and what is changed of it.')
say("CREATE TABLE sales (id INTEGER NOT NULL, day INTEGER NOT NULL, item VARCHAR(20), pieces INTEGER, price INTEGER, paid BOOLEAN)", 'CREATE TABLE')
say("CREATE PROJECTION sales_of_an_item (item ENCODING RLE, pieces, price) AS SELECT item, pieces, price FROM sales ORDER BY item, price", 'CREATE PROJECTION')
say("COPY sales FROM 'sales.tbl'", 'COPY %d EPOCH 1' % len(ROWS))
ask('SELECT COUNT(*) AS n, COUNT(pieces) AS known, SUM(pieces * price) AS turnover FROM sales')
ask('SELECT item, COUNT(*) AS n, SUM(pieces) AS sold, MIN(price) AS least, MAX(price) AS most FROM sales GROUP BY item ORDER BY item')
ask("SELECT id, pieces * price AS total FROM sales WHERE item = 'lamp' AND pieces > 50 ORDER BY total DESC, id LIMIT 5")
change('DELETE FROM sales WHERE pieces IS NULL')
change("UPDATE sales SET price = price - 1, paid = TRUE WHERE item = 'nut' AND paid IS NULL")
say('COMMIT', 'COMMIT EPOCH 2')
ask('SELECT COUNT(*) AS n, SUM(price) AS prices FROM sales WHERE paid')
say('AT EPOCH 1 SELECT COUNT(*) AS n FROM sales', '%d' % len(ROWS), '(1 rows)')

for name, lines in (('sales.tbl', ['|'.join(field(v) for v in row) for row in ROWS]), ('sales.sql', script), ('sales.out', printed)):
    with open(os.path.join(HERE, name), 'w') as out:
        out.write(''.join(line + '\n' for line in lines))
