#!/usr/bin/env python3
"""Writes the input of crates/run_cases and what it must print.

    tools/run_cases.py

Queries are answered by sqlite3 over the rows that the program's statements put there; all other lines are written here by hand.
"""
import os
import sqlite3

HERE = os.path.join(os.path.dirname(os.path.abspath(__file__)), '..', 'crates', 'run_cases')
lines, wanted = [], []
peer = sqlite3.connect(':memory:')


def told(value):
    return '' if value is None else str(value)


def note(text):
    lines.append(text)
    wanted.append(text)


def new():
    lines.append('new')
    for (name,) in peer.execute("SELECT name FROM sqlite_master WHERE type = 'table'").fetchall():
        peer.execute('DROP TABLE %s' % name)


def files(*numbers):
    lines.append('files')
    wanted.append(' '.join(['files'] + [str(n) for n in numbers]))


class Run:
    """A run of the statements that are said, and its exit status at the end."""

    def __init__(self, words=''):
        self.words, self.script, self.answers = words, [], []

    def say(self, statement, *answers):
        self.script.append(statement)
        self.answers.extend(answers)

    def ask(self, query, peers=None):
        rows = peer.execute(peers or query).fetchall()
        self.say(query, *['|'.join(told(v) for v in row) or '""' for row in rows], '(%d rows)' % len(rows))

    def insert(self, table, rows):
        def text(v):
            return 'NULL' if v is None else "'%s'" % v if isinstance(v, str) else str(v)
        self.say('INSERT INTO %s VALUES %s' % (table, ', '.join('(%s)' % ', '.join(map(text, row)) for row in rows)), 'INSERT %d' % len(rows))
        peer.executemany('INSERT INTO %s VALUES (%s)' % (table, ', '.join('?' * len(rows[0]))), rows)

    def change(self, statement, epoch=None):
        """A DELETE or an UPDATE that sqlite3 runs too; with an epoch, its COMMIT closes that."""
        count = peer.execute(statement).rowcount
        self.say(statement, '%s %d' % (statement.split()[0], count))
        if epoch:
            self.say('COMMIT', 'COMMIT EPOCH %d' % epoch)

    def end(self, status=None):
        lines.append(('run ' + self.words).rstrip())
        lines.extend(s + ';' for s in self.script)
        lines.append('.')
        wanted.extend(self.answers)
        refused = any(a.startswith('ERROR ') for a in self.answers)
        wanted.append('status %d' % (status if status is not None else 1 if refused else 0))


def bytes_of(files):
    """The bytes of each file, worked out by hand from docs/FORMATS.md."""
    lines.append('bytes')
    wanted.extend('%d %s' % file for file in files)


def load(name, *rows):
    lines.extend(['load ' + name] + list(rows) + ['.'])


def put(number, digits):
    lines.append('put %d %s' % (number, digits))


def changes(query, *texts):
    """What the query says where one byte of one file is changed: each text once, in the order in which the changes come."""
    lines.extend(['changes', query + ';', '.'])
    for text, status in texts:
        wanted.extend(text)
        wanted.append('status %d' % status)


def stops(query, *texts):
    """What the query says over what a stop of the last run leaves: each text once, in the order in which the stops leave them."""
    lines.extend(['stops', query + ';', '.'])
    for text in texts:
        wanted.extend(text)
        wanted.append('status %d' % any(line.startswith('ERROR ') for line in text))


def failing(*texts):
    """What the last run prints where one call of the disk fails: each text once, in the order of the calls, with its status."""
    lines.append('failing')
    for text, status in texts:
        wanted.extend(text)
        wanted.append('status %d' % status)


def said(statement, *answers):
    """What a statement of the session that is open prints over the disk as it is now."""
    lines.extend(['say', statement, '.'])
    wanted.extend(answers)


note('# a table, its files, and the same without its end')
r = Run()
r.say('CREATE TABLE t (a INTEGER)', 'CREATE TABLE')
r.say('INSERT INTO t VALUES (2), (1)', 'INSERT 2')
r.say('COMMIT', 'COMMIT EPOCH 1')
r.say('SELECT a FROM t', '1', '2', '(2 rows)')
r.say('AT EPOCH 0 SELECT a FROM t', '(0 rows)')
r.say('AT EPOCH 2 SELECT a FROM t', 'ERROR 14 EpochInFuture 2 1')
r.say('SELECT GET_LAST_GOOD_EPOCH()', 'LGE 0')
r.end()
files(8, 12, 16, 20, 25, 26)
stops('SELECT a FROM t', ['ERROR 2 UnknownTable t'], ['(0 rows)'], ['1', '2', '(2 rows)'])
# the column, its index, the epochs, their index, the catalogue (epoch 1, the next number 7, the container of base 2) and the gate
bytes_of([(8, '020200000000000000010102'), (12, '02000001' + '0000000000000001' + '01' + '0000000000000002'), (16, '010101000000000000000102'),
          (20, '02000001' + '0000000000000001' + '01' + '0000000000000001'), (25, '56434154' + '02010007' + '01' + '0174' + '01' + '0161' + '0100' + '01' + '07' + '745f7375706572' + '01000000' + '0100' + '010101' + '01' + '02020101' + '00000001'),
          (26, '56')])
# no file has a check of its sums: a number that stays between the bounds of its block is another number, a name another name
changes('SELECT a FROM t', ([], 6), (['1', '1', '(2 rows)'], 0), (['1', '2', '(2 rows)'], 0), (['ERROR 2 UnknownTable t'], 1), (['ERROR 4 UnknownColumn a'], 1))
r = Run('--halt')
r.say('INSERT INTO t VALUES (3)', 'INSERT 1')
r.say('COMMIT', 'COMMIT EPOCH 2')
r.say('SELECT a FROM t', '1', '2', '3', '(3 rows)')
r.end()
files(8, 12, 16, 20, 25, 26)
r = Run()
r.say('SELECT a FROM t', '1', '2', '(2 rows)')
r.say('SELECT GET_CURRENT_EPOCH()', 'EPOCH 2')
r.end()
files(8, 12, 16, 20, 25, 26)

note('# words that are none')
for words, status in (('--mover', 2), ('--mover x', 2), ('--mover 1001', 2), ('--mover 01', 2), ('--mover 1 --mover 1', 2), ('--halt --halt', 2), ('--other', 2), ('d', 2),
                      ('--mover 1000', 0), ('--mover 0 --halt', 0)):
    r = Run(words)
    r.end(status)
new()

note('# rows in memory, and a stop before they were moved out')
r = Run('--halt')
r.say('CREATE TABLE t (a INTEGER, b VARCHAR(10))', 'CREATE TABLE')
peer.execute('CREATE TABLE t (a INTEGER, b TEXT)')
r.say('CREATE TABLE t (a INTEGER)', 'ERROR 6 Exists t')
r.insert('t', [(2, 'two'), (1, 'one'), (3, None)])
r.ask('SELECT a, b FROM t ORDER BY a')
r.say('AT EPOCH LATEST SELECT a FROM t', '(0 rows)')
r.say('COMMIT', 'COMMIT EPOCH 1')
r.ask('SELECT b AS x FROM t WHERE a > 1 ORDER BY x LIMIT 5')
r.say('AT EPOCH 0 SELECT a FROM t', '(0 rows)')
r.say('AT EPOCH 2 SELECT a FROM t', 'ERROR 14 EpochInFuture 2 1')
r.end()
peer.execute('DELETE FROM t')
r = Run('--halt')
r.ask('SELECT a FROM t')
r.insert('t', [(5, 'five'), (4, 'four'), (4, None)])
r.say('COMMIT', 'COMMIT EPOCH 1')
r.say('\\step')
r.say('\\step')
r.say('SELECT GET_LAST_GOOD_EPOCH()', 'LGE 1')
r.end()
stops('SELECT a FROM t', ['(0 rows)'], ['4', '4', '5', '(3 rows)'])

note('# joins and groups; another session neither sees nor drops what is pending')
r = Run('--mover 2')
r.ask('SELECT a, b FROM t ORDER BY a, b')
r.say('CREATE TABLE u (a INTEGER NOT NULL, c BOOLEAN)', 'CREATE TABLE')
peer.execute('CREATE TABLE u (a INTEGER, c INTEGER)')
r.say('INSERT INTO u VALUES (4, TRUE), (5, FALSE), (5, TRUE), (6, NULL)', 'INSERT 4')
peer.executemany('INSERT INTO u VALUES (?, ?)', [(4, 1), (5, 0), (5, 1), (6, None)])
r.say('INSERT INTO u VALUES (NULL, TRUE)', 'ERROR 22 NullRefused a')
r.ask('SELECT u.a AS x, t.b AS y FROM t JOIN u ON t.a = u.a ORDER BY x, y')
r.ask('SELECT a, COUNT(*) AS n, COUNT(c) AS m FROM u GROUP BY a ORDER BY a')
r.ask('SELECT COUNT(*) AS n FROM t, u WHERE t.a < u.a')
r.ask('SELECT a FROM u GROUP BY a HAVING COUNT(*) > 1')
r.say('\\session 2')
r.say('SELECT a FROM u', '(0 rows)')
r.say('DROP TABLE u', 'ERROR 16 Locked 1')
r.say('INSERT INTO u VALUES (9, NULL)', 'INSERT 1')
r.say('SELECT a FROM u', '9', '(1 rows)')
r.say('\\session 1')
r.say('COMMIT', 'COMMIT EPOCH 2')
r.say('COMMIT', 'COMMIT')
r.say('DROP TABLE u', 'ERROR 16 Locked 2')
r.insert('u', [(7, None)])
r.say('ROLLBACK', 'ROLLBACK')
peer.execute('DELETE FROM u WHERE a = 7')
r.ask('SELECT a FROM u ORDER BY a')
r.say('\\session 2')
r.say('ROLLBACK', 'ROLLBACK')
r.say('DROP TABLE u', 'DROP TABLE')
r.say('SELECT a FROM u', 'ERROR 2 UnknownTable u')
r.say('SELECT a FROM', 'ERROR 1 Syntax 4')
r.say('\\session 9', 'ERROR 1 Syntax 2')
r.end()

note('# several blocks, on disk and in memory at once')
r = Run()
r.say('CREATE TABLE n (k INTEGER, v INTEGER)', 'CREATE TABLE')
peer.execute('CREATE TABLE n (k INTEGER, v INTEGER)')
r.insert('n', [(i * 7 % 3001, i % 7) for i in range(3001)])
r.say('COMMIT', 'COMMIT EPOCH 3')
r.ask('SELECT v, COUNT(*) AS n, SUM(k) AS s, MIN(k) AS low, MAX(k) AS high FROM n GROUP BY v ORDER BY v')
r.say("SELECT DO_TM_TASK('moveout')", 'MOVEOUT')
r.insert('n', [(5000 + i, i % 7) for i in range(1500)])
r.say('COMMIT', 'COMMIT EPOCH 4')
r.ask('SELECT v, COUNT(*) AS n, SUM(k) AS s FROM n GROUP BY v ORDER BY v')
r.ask('SELECT k FROM n WHERE k >= 2990 ORDER BY k LIMIT 20')
r.say('AT EPOCH 3 SELECT MAX(k) AS high FROM n', '3000', '(1 rows)')
r.ask('SELECT n.k AS x FROM n JOIN t ON n.k = t.a ORDER BY x')
r.end()
r = Run()
r.ask('SELECT COUNT(*) AS n, SUM(k) AS s FROM n')
r.say('SELECT GET_CURRENT_EPOCH()', 'EPOCH 5')
r.say('SELECT GET_AHM_EPOCH()', 'AHM 0')
r.end()

new()

note('# one run, or three of the same statements')
FIRST = [('CREATE TABLE t (a INTEGER)', 'CREATE TABLE'), ('INSERT INTO t VALUES (5), (-3)', 'INSERT 2'), ('COMMIT', 'COMMIT EPOCH 1')]
SECOND = [('INSERT INTO t VALUES (4)', 'INSERT 1'), ('COMMIT', 'COMMIT EPOCH 2'), ('CREATE TABLE s (b INTEGER)', 'CREATE TABLE'),
          ('INSERT INTO t VALUES (-9), (5)', 'INSERT 2'), ('COMMIT', 'COMMIT EPOCH 3')]
THIRD = [('INSERT INTO s VALUES (9)', 'INSERT 1'), ('COMMIT', 'COMMIT EPOCH 4'), ('INSERT INTO t VALUES (7)', 'INSERT 1')]
for parts in ((FIRST, SECOND, THIRD), (FIRST + SECOND + THIRD,)):
    for part in parts:
        r = Run()
        for statement, answer in part:
            r.say(statement, answer)
        r.end()
    r = Run()
    for epoch, rows in enumerate([[], [-3, 5], [-3, 4, 5], [-9, -3, 4, 5, 5], [-9, -3, 4, 5, 5]]):
        r.say('AT EPOCH %d SELECT a FROM t' % epoch, *[str(a) for a in rows], '(%d rows)' % len(rows))
    r.say('AT EPOCH 3 SELECT b FROM s', '(0 rows)')
    r.say('SELECT b FROM s', '9', '(1 rows)')
    r.say('nothing', 'ERROR 1 Syntax 1')
    r.end()
    new()

note('# a projection beside the first, and stops in a moveout of both')
r = Run('--halt')
r.say('CREATE TABLE t (a INTEGER, b INTEGER)', 'CREATE TABLE')
r.say('CREATE PROJECTION p (b) AS SELECT b FROM t', 'CREATE PROJECTION')
r.say('INSERT INTO t VALUES (1, 20), (2, 10)', 'INSERT 2')
r.say('COMMIT', 'COMMIT EPOCH 1')
r.say("SELECT DO_TM_TASK('moveout')", 'MOVEOUT')
r.say('INSERT INTO t VALUES (3, 10)', 'INSERT 1')
r.say('COMMIT', 'COMMIT EPOCH 2')
r.say('SELECT b FROM t', '10', '10', '20', '(3 rows)')
r.say('SELECT GET_LAST_GOOD_EPOCH()', 'LGE 1')
r.end()
r = Run('--halt')
r.say('SELECT b FROM t', '10', '20', '(2 rows)')
r.say('INSERT INTO t VALUES (3, 30)', 'INSERT 1')
r.say('COMMIT', 'COMMIT EPOCH 2')
r.say('\\step')
r.say('SELECT GET_LAST_GOOD_EPOCH()', 'LGE 1')
r.say('\\step')
r.say('SELECT GET_LAST_GOOD_EPOCH()', 'LGE 2')
r.say('DROP PROJECTION p', 'DROP PROJECTION')
r.end()
stops('SELECT b FROM t; SELECT a FROM t', ['10', '20', '(2 rows)', '1', '2', '(2 rows)'], ['10', '20', '30', '(3 rows)', '1', '2', '3', '(3 rows)'])
new()

note('# a load file behind pending rows, and stops')
load('t.tbl', '2', '', '1')
load('wrong.tbl', '4', 'x')
r = Run()
r.say('CREATE TABLE t (a INTEGER)', 'CREATE TABLE')
r.say('INSERT INTO t VALUES (3)', 'INSERT 1')
r.say("COPY t FROM 'wrong.tbl'", 'ERROR 19 BadLoadLine 2 1')
r.say("COPY t FROM 'none.tbl'", 'ERROR 18 NoFile')
r.say("COPY t FROM 't.tbl'", 'COPY 2 EPOCH 1')
r.say('ROLLBACK', 'ROLLBACK')
r.say('SELECT a FROM t', '1', '2', '3', '(3 rows)')
r.end()
stops('SELECT a FROM t', ['ERROR 2 UnknownTable t'], ['(0 rows)'], ['1', '2', '3', '(3 rows)'])
new()

note('# rows deleted and changed, equal ones among them, in memory and on disk, over two projections, with the past')
ALL = 'SELECT a, b, c FROM t ORDER BY a, b, c'
HALF = 'SELECT b, COUNT(*) AS n, SUM(c) AS s FROM t GROUP BY b ORDER BY b'
r = Run()
r.say('CREATE TABLE t (a INTEGER NOT NULL, b VARCHAR(4), c INTEGER)', 'CREATE TABLE')
r.say('CREATE PROJECTION p (b ENCODING RLE, c) AS SELECT b, c FROM t ORDER BY b', 'CREATE PROJECTION')
peer.execute('CREATE TABLE t (a INTEGER, b TEXT, c INTEGER)')
r.insert('t', [(1, 'x', 10), (1, 'x', 10), (1, 'x', 10), (2, 'y', None), (3, None, 30), (4, 'x', 40)])
r.change("DELETE FROM t WHERE a = 2")
r.change("UPDATE t SET c = c + 1 WHERE a = 1", 1)
r.ask(ALL)
r.say("SELECT DO_TM_TASK('moveout')", 'MOVEOUT')
first = peer.execute(ALL).fetchall()
r.insert('t', [(1, 'x', 11), (5, 'z', 50)])
r.change("UPDATE t SET c = c * 2 WHERE b = 'x'")
r.ask(ALL)
r.say('AT EPOCH LATEST SELECT COUNT(*) FROM t', '%d' % len(first), '(1 rows)')
r.change("DELETE FROM t WHERE c = 22")
r.change("DELETE FROM t WHERE c = 22", 2)
r.ask(ALL)
r.ask(HALF)
r.say('AT EPOCH 1 ' + ALL, *['|'.join(told(v) for v in row) for row in first], '(%d rows)' % len(first))
r.change('UPDATE t SET a = c, c = a WHERE c < 100')
r.ask(ALL)
r.say('ROLLBACK', 'ROLLBACK')
peer.execute('UPDATE t SET a = c, c = a WHERE a < 100')
r.ask(ALL)
r.end()
new()

note('# what is set is worked out in exact numbers, and refused where no column holds it')
r = Run()
r.say('CREATE TABLE t (a INTEGER NOT NULL, b VARCHAR(4), c BOOLEAN)', 'CREATE TABLE')
r.say("INSERT INTO t VALUES (1, 'one', TRUE), (9223372036854775807, 'more', FALSE), (-9223372036854775807, NULL, NULL)", 'INSERT 3')
r.say('COMMIT', 'COMMIT EPOCH 1')
r.say('UPDATE t SET a = a + 1', 'ERROR 20 IntegerOutOfRange a')
r.say("UPDATE t SET b = 'fiver' WHERE a = 1", 'ERROR 21 TextTooLong b')
r.say('UPDATE t SET a = NULL WHERE b IS NULL', 'ERROR 22 NullRefused a')
r.say("UPDATE t SET a = NULL, b = 'fiver'", 'ERROR 21 TextTooLong b')
r.say("UPDATE t SET a = a * 2, b = 'fiver'", 'ERROR 20 IntegerOutOfRange a')
r.say("UPDATE t SET a = NULL WHERE a = 2", 'UPDATE 0')
r.say('UPDATE t SET a = c', 'ERROR 8 TypeMismatch')
r.say('UPDATE t SET a = 1, a = 2', 'ERROR 5 Ambiguous a')
r.say('UPDATE t SET d = 1', 'ERROR 4 UnknownColumn d')
r.say('UPDATE u SET a = 1', 'ERROR 2 UnknownTable u')
r.say('DELETE FROM t WHERE a', 'ERROR 8 TypeMismatch')
r.say("UPDATE t SET a = 0 - a, c = b = 'one' WHERE a > 1 OR c", 'UPDATE 2')
r.say('SELECT a, b, c FROM t', '-9223372036854775807||', '-9223372036854775807|more|f', '-1|one|t', '(3 rows)')
r.say('COMMIT', 'COMMIT EPOCH 2')
r.end()
new()

note('# who deletes holds the table against all, and is held up by who inserts')
r = Run()
r.say('CREATE TABLE t (a INTEGER)', 'CREATE TABLE')
r.say('INSERT INTO t VALUES (1), (1), (2)', 'INSERT 3')
r.say('COMMIT', 'COMMIT EPOCH 1')
r.say('DELETE FROM t WHERE a = 1', 'DELETE 2')
r.say('INSERT INTO t VALUES (1)', 'INSERT 1')
r.say('\\session 2')
r.say('SELECT a FROM t', '1', '1', '2', '(3 rows)')
r.say('INSERT INTO t VALUES (3)', 'ERROR 16 Locked 1')
r.say('DELETE FROM t', 'ERROR 16 Locked 1')
r.say('UPDATE t SET a = 4', 'ERROR 16 Locked 1')
r.say("COPY t FROM 'none'", 'ERROR 16 Locked 1')
r.say("COPY u FROM 'none'", 'ERROR 2 UnknownTable u')
r.say('\\session 1')
r.say("COPY t FROM 'none'", 'ERROR 18 NoFile')
r.say('COMMIT', 'COMMIT EPOCH 2')
r.say('\\session 2')
r.say('INSERT INTO t VALUES (3)', 'INSERT 1')
r.say('\\session 1')
r.say('SELECT a FROM t', '1', '2', '(2 rows)')
r.say('DELETE FROM t', 'ERROR 16 Locked 2')
r.say('DELETE FROM t WHERE b', 'ERROR 4 UnknownColumn b')
r.say('\\session 2')
r.say('DELETE FROM t WHERE a < 3', 'DELETE 2')
r.say('SELECT a FROM t', '3', '(1 rows)')
r.say('ROLLBACK', 'ROLLBACK')
r.say('DELETE FROM t', 'DELETE 2')
r.say('COMMIT', 'COMMIT EPOCH 3')
r.say('SELECT a FROM t', '(0 rows)')
r.say('AT EPOCH 1 SELECT a FROM t', '1', '1', '2', '(3 rows)')
r.say('AT EPOCH 2 SELECT a FROM t', '1', '2', '(2 rows)')
r.end()
stops('SELECT a FROM t', ['ERROR 2 UnknownTable t'], ['(0 rows)'])
new()

note('# deletes over several blocks, in containers and in memory')
r = Run('--mover 1')
r.say('CREATE TABLE n (k INTEGER, v INTEGER)', 'CREATE TABLE')
peer.execute('CREATE TABLE n (k INTEGER, v INTEGER)')
r.insert('n', [(i * 7 % 3001, i % 7) for i in range(3001)])
r.say('COMMIT', 'COMMIT EPOCH 1')
r.change('DELETE FROM n WHERE v = 3', 2)
r.insert('n', [(5000 + i, i % 7) for i in range(1500)])
r.change('UPDATE n SET v = v + k WHERE k > 4000 AND v < 2')
r.change('DELETE FROM n WHERE k < 100 OR v > 6000', 3)
r.ask('SELECT COUNT(*) AS n, SUM(k) AS s, SUM(v) AS t FROM n')
r.ask('SELECT k, v FROM n WHERE v > 5000 ORDER BY k, v LIMIT 9')
r.end()
r = Run()
r.ask('SELECT COUNT(*) AS n, SUM(k) AS s, SUM(v) AS t FROM n')
r.change('DELETE FROM n', 4)
r.ask('SELECT COUNT(*) AS n, SUM(k) AS s, SUM(v) AS t FROM n')
r.end()
new()

note('# START_REFRESH, and the steps of the mover between other statements')
r = Run()
r.say('CREATE TABLE t (a INTEGER, b INTEGER)', 'CREATE TABLE')
r.say('INSERT INTO t VALUES (1, 10), (2, 20)', 'INSERT 2')
r.say('COMMIT', 'COMMIT EPOCH 1')
r.say('CREATE PROJECTION q (b) AS SELECT b FROM t ORDER BY b', 'CREATE PROJECTION')
r.say('SELECT START_REFRESH()', 'START REFRESH')
r.say('\\step')
r.say('SELECT GET_LAST_GOOD_EPOCH()', 'LGE 1')
r.say('\\step')
r.say('DELETE FROM t WHERE a = 1', 'DELETE 1')
r.say('COMMIT', 'COMMIT EPOCH 2')
r.say('\\step')
r.say('\\step')
r.say('EXPLAIN SELECT b FROM t', 'SCAN t t_super')
r.say('\\step')
r.say('EXPLAIN SELECT b FROM t', 'SCAN t q')
r.say('SELECT b FROM t', '20', '(1 rows)')
r.say('AT EPOCH 1 SELECT b FROM t', '10', '20', '(2 rows)')
r.end()
stops('SELECT b FROM t', ['ERROR 2 UnknownTable t'], ['(0 rows)'], ['10', '20', '(2 rows)'], ['20', '(1 rows)'])
new()
r = Run('--mover 5')
r.say('CREATE TABLE t (a INTEGER)', 'CREATE TABLE')
for i in range(1, 6):
    r.say('INSERT INTO t VALUES (%d)' % i, 'INSERT 1')
    r.say('COMMIT', 'COMMIT EPOCH %d' % i)
r.say('SELECT GET_LAST_GOOD_EPOCH()', 'LGE 5')
r.end()
stops('SELECT a FROM t', ['ERROR 2 UnknownTable t'], ['(0 rows)'], *[[str(i) for i in range(1, n + 1)] + ['(%d rows)' % n] for n in range(1, 6)])
new()

note('# folders that are none, and one whose epochs are spent')
put(8, '00')
r = Run()
r.end(6)
new()
# the greatest epoch, 2^63 - 1, is the newest one, and the projection has reached it
put(5, '56434154' + '01' + 'ffffffffffffffff7f' + '0002' + '01' + '0174' + '01' + '0161' + '0100' + '01' + '07' + '745f7375706572' + '010004' + '0100' + '01' + 'ffffffffffffffff7f' + '0000')
put(6, '56')
r = Run()
r.say('INSERT INTO t VALUES (1)', 'INSERT 1')
r.say('COMMIT', 'ERROR 24 EpochsSpent')
r.say('ROLLBACK', 'ROLLBACK')
r.say('COMMIT', 'COMMIT')
r.end()
files(5, 6)
new()
# 2^60 numbers are used up
put(5, '56434154' + '010000' + '8080808080808080' + '10' + '01' + '0174' + '01' + '0161' + '0100' + '01' + '07' + '745f7375706572' + '010000' + '0100' + '01000000')
put(6, '56')
r = Run('--mover 1')
r.say('DROP TABLE t', 'ERROR 25 NumbersSpent')
r.say('INSERT INTO t VALUES (1)', 'INSERT 1')
r.say('COMMIT', 'COMMIT EPOCH 1')
r.say("SELECT DO_TM_TASK('moveout')", 'ERROR 25 NumbersSpent')
r.say('SELECT a FROM t', '1', '(1 rows)')
r.end()
files(5, 6)
new()
# the same with rows on disk up to epoch 1: a mark that rises would draw a number
put(5, '56434154' + '010100' + '8080808080808080' + '10' + '01' + '0174' + '01' + '0161' + '0100' + '01' + '07' + '745f7375706572' + '010000' + '0100' + '01010000')
put(6, '56')
r = Run()
r.say('SELECT SET_AHM_EPOCH(2)', 'ERROR 15 BadMark 2 0 1')
r.say('SELECT SET_AHM_EPOCH(1)', 'ERROR 25 NumbersSpent')
r.say('SELECT MAKE_AHM_NOW()', 'ERROR 25 NumbersSpent')
r.say('SELECT SET_AHM_EPOCH(0)', 'AHM 0')
r.end()
files(5, 6)
new()

note('# the ancient history mark is in the folder when it is told')
r = Run('--halt')
r.say('CREATE TABLE t (a INTEGER)', 'CREATE TABLE')
r.say('INSERT INTO t VALUES (2), (1)', 'INSERT 2')
r.say('COMMIT', 'COMMIT EPOCH 1')
r.say("SELECT DO_TM_TASK('moveout')", 'MOVEOUT')
r.say('SELECT MAKE_AHM_NOW()', 'AHM 1')
r.end()
stops('SELECT GET_AHM_EPOCH()', ['AHM 0'], ['AHM 1'])
files(8, 12, 16, 20, 29, 30)
r = Run()
r.say('SELECT GET_AHM_EPOCH()', 'AHM 1')
r.say('AT EPOCH 0 SELECT a FROM t', 'ERROR 13 EpochTooOld 0 1')
r.say('SELECT MAKE_AHM_NOW()', 'AHM 1')
r.end()
# a mark that doesn't rise writes nothing
files(8, 12, 16, 20, 29, 30)
new()

note('# rows are read from the files, and are nowhere else')
r = Run()
r.say('CREATE TABLE t (a INTEGER)', 'CREATE TABLE')
r.say('INSERT INTO t VALUES (2), (1)', 'INSERT 2')
r.say('COMMIT', 'COMMIT EPOCH 1')
r.say('SELECT a FROM t', '1', '2', '(2 rows)')
r.end()
r = Run()
r.say('SELECT GET_CURRENT_EPOCH()', 'EPOCH 2')
r.say('SELECT a FROM t', '1', '2', '(2 rows)')
r.end()
failing(([], 5), (['EPOCH 2'], 5))
lines.append('open')
put(8, '02020000000000000003' + '0102')
put(12, '02000001' + '0000000000000003' + '01' + '0000000000000004')
said('SELECT a FROM t', '3', '4', '(2 rows)')
new()
r = Run()
r.say('CREATE TABLE t (a INTEGER)', 'CREATE TABLE')
r.say('INSERT INTO t VALUES (2), (1)', 'INSERT 2')
r.say('COMMIT', 'COMMIT EPOCH 1')
r.say("SELECT DO_TM_TASK('moveout')", 'MOVEOUT')
r.say('SELECT a FROM t', '1', '2', '(2 rows)')
r.end()
failing(([], 5), (['CREATE TABLE', 'INSERT 2', 'COMMIT EPOCH 1'], 5), (['CREATE TABLE', 'INSERT 2', 'COMMIT EPOCH 1', 'MOVEOUT'], 5))

new()

note('# stops and failing calls in a change of columns, a delete, a mergeout in steps and a purge')
r = Run('--halt')
r.say('CREATE TABLE t (a INTEGER)', 'CREATE TABLE')
fronts = [[]]
for i in range(1, 5):
    r.say('INSERT INTO t VALUES (%d)' % i, 'INSERT 1')
    r.say('COMMIT', 'COMMIT EPOCH %d' % i)
    fronts.append(list(r.answers))
    r.say("SELECT DO_TM_TASK('moveout')", 'MOVEOUT')
# each of these calls the disk, and an answer of the one before it is the last that is printed where a call fails
for statement, *answers in (
    ('ALTER TABLE t ADD COLUMN b INTEGER DEFAULT 7', 'ALTER TABLE'),
    ('DELETE FROM t WHERE a = 2', 'DELETE 1'),
    ('COMMIT', 'COMMIT EPOCH 5'),
    ("SELECT DO_TM_TASK('moveout')", 'MOVEOUT'),
    ('\\step',),
    ('\\step',),
    ('\\step',),
    ('\\step',),
    ('SELECT MAKE_AHM_NOW()', 'AHM 5'),
    ("SELECT PURGE_TABLE('t')", 'PURGE'),
):
    if r.answers not in fronts:
        fronts.append(list(r.answers))
    r.say(statement, *answers)
r.end()
failing(*[(front, 5) for front in fronts])
stops('SELECT a, b FROM t', ['ERROR 2 UnknownTable t'], ['ERROR 4 UnknownColumn b'], ['1|7', '2|7', '3|7', '4|7', '(4 rows)'], ['1|7', '3|7', '4|7', '(3 rows)'])

with open(os.path.join(HERE, 'stdin'), 'w') as out:
    out.write(''.join(line + '\n' for line in lines))
with open(os.path.join(HERE, 'stdout'), 'w') as out:
    out.write(''.join(line + '\n' for line in wanted))
print('%d lines, %d answers' % (len(lines), len(wanted)))
