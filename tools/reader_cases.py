#!/usr/bin/env python3
"""Writes the cases of crates/reader_cases: texts, each with the place at which the reader has to refuse it, or 0 where it is a statement.

The places come from the grammar alone: from its productions, as a general parser (Earley's) reads them, and never from the program.
tools/reader_cases.py > crates/reader_cases/stdin
"""
import datetime
import random
import re

GRAMMAR = '''
statement = CREATE TABLE name ( columns )
statement = CREATE PROJECTION name ( pcols ) AS SELECT names FROM name
statement = CREATE PROJECTION name ( pcols ) AS SELECT names FROM name ORDER BY names
statement = ALTER TABLE name ADD COLUMN column DEFAULT literal
statement = DROP TABLE name
statement = DROP PROJECTION name
statement = INSERT INTO name VALUES tuples
statement = DELETE FROM name where
statement = UPDATE name SET sets where
statement = COPY name FROM text
statement = COMMIT
statement = ROLLBACK
statement = SELECT function
statement = SELECT query
statement = AT EPOCH int SELECT query
statement = AT EPOCH LATEST SELECT query
statement = EXPLAIN SELECT query
statement = \\session eight
statement = \\step
columns = column
columns = columns , column
column = name type
column = name type NOT NULL
type = INTEGER
type = INT
type = BIGINT
type = BOOLEAN
type = VARCHAR ( width )
type = DATE
pcols = pcol
pcols = pcols , pcol
pcol = name
pcol = name ENCODING encoding
encoding = AUTO
encoding = RLE
encoding = DELTAVAL
encoding = BLOCK_DICT
encoding = PLAIN
names = name
names = names , name
tuples = tuple
tuples = tuples , tuple
tuple = ( literals )
literals = literal
literals = literals , literal
literal = int
literal = - int
literal = text
literal = DATE day
literal = TRUE
literal = FALSE
literal = NULL
sets = set
sets = sets , set
set = name = expr
where =
where = WHERE expr
function = GET_LAST_GOOD_EPOCH ( )
function = GET_AHM_EPOCH ( )
function = GET_CURRENT_EPOCH ( )
function = MAKE_AHM_NOW ( )
function = START_REFRESH ( )
function = SET_AHM_EPOCH ( int )
function = DO_TM_TASK ( task )
function = PURGE_TABLE ( spelled )
function = REFRESH ( spelled )
query = * FROM sources where groupby having orderby limit
query = items FROM sources where groupby having orderby limit
query = witems FROM sources where orderby limit
items = item
items = items , item
item = gexpr
item = gexpr AS name
witems = witem
witems = witems , witem
witem = wtree
witem = wtree AS name
wtree = expr
wtree = window
window = wfunction OVER ( partition worder )
wfunction = ROW_NUMBER ( )
wfunction = RANK ( )
wfunction = COUNT ( * )
wfunction = COUNT ( expr )
wfunction = SUM ( expr )
partition =
partition = PARTITION BY colrefs
worder =
worder = ORDER BY wkeys
wkeys = wkey
wkeys = wkeys , wkey
wkey = colref
wkey = colref ASC
wkey = colref DESC
sources = source
sources = sources , source
sources = sources JOIN source ON expr
sources = sources INNER JOIN source ON expr
source = name
source = name AS name
groupby =
groupby = GROUP BY colrefs
colrefs = colref
colrefs = colrefs , colref
colref = name
colref = name . name
having =
having = HAVING gexpr
orderby =
orderby = ORDER BY keys
keys = key
keys = keys , key
key = int
key = int ASC
key = int DESC
key = name
key = name ASC
key = name DESC
limit =
limit = LIMIT int
'''

# The levels of an expression. `g`: aggregates may stand in it; `p`: no BETWEEN and no IN stands in it, at any depth.
LEVELS = '''
X = Xconj
X = X OR Xconj
Xconj = Xneg
Xconj = Xconj AND Xneg
Xneg = Xtest
Xneg = NOT Xtest
Xtest = Xsum
Xtest = Xsum cmp Xsum
Xtest = Xsum IS NULL
Xtest = Xsum IS NOT NULL
Xsum = Xproduct
Xsum = Xsum + Xproduct
Xsum = Xsum - Xproduct
Xproduct = Xunary
Xproduct = Xproduct * Xunary
Xunary = Xprimary
Xunary = - Xprimary
Xprimary = int
Xprimary = text
Xprimary = DATE day
Xprimary = TRUE
Xprimary = FALSE
Xprimary = NULL
Xprimary = colref
Xprimary = ( X )
'''

RANGES = '''
Xtest = Psum BETWEEN Xsum AND Xsum
Xtest = Psum IN ( Xsums )
Xsums = Xsum
Xsums = Xsums , Xsum
'''

AGGREGATES = '''
Xprimary = COUNT ( * )
Xprimary = COUNT ( A )
Xprimary = SUM ( A )
Xprimary = MIN ( A )
Xprimary = MAX ( A )
'''


def productions():
    text = GRAMMAR
    for level in ('expr', 'pexpr', 'gexpr', 'gpexpr'):
        text += LEVELS.replace('X', level)
        pure = {'expr': 'pexpr', 'gexpr': 'gpexpr'}.get(level)
        if pure:
            text += RANGES.replace('Xsums', level + 'sums').replace('Xsum', level + 'sum').replace('Xtest', level + 'test').replace('Psum', pure + 'sum')
        if level[0] == 'g':
            argument = 'pexpr' if level == 'gpexpr' else 'expr'
            text += AGGREGATES.replace('Xprimary', level + 'primary').replace('( A )', '( ' + argument + ' )')
    rules = {}
    for line in text.split('\n'):
        if line.strip():
            head, _, body = line.partition(' =')
            rules.setdefault(head.strip(), []).append(body.split())
    for sign in ('=', '<>', '!=', '<', '<=', '>', '>='):
        rules.setdefault('cmp', []).append([sign])
    return rules


RULES = productions()
START = 'statement'

# Tokens of a class: what is written, and the classes of the grammar that it is.
SAMPLES = {
    'name': ['t', 'Sale', '_x1', 'inte'], 'text': ["'a'", "''", "'it''s; -- no'"], 'int': ['0', '7', '00099', '170141183460469231731687303715884105727'],
    'day': ["'2024-02-29'", "'0001-01-01'", "'1970-01-01'", "'9999-12-31'"],
    'width': ['0', '20', '4294967295'], 'eight': ['1', '8'], 'task': ["'moveout'", "'mergeout'"], 'spelled': ["'t'", "'Sale'", "'_x1'", "'moveout'"],
}

# Texts for the functions that take one: tasks, names, and what is nearly one.
TEXTS = '''moveout mergeout Moveout MERGEOUT moveout_ mergeou t T Sale _ _x1 a9 inte 9 9t t.u t''u t; t--x -- é té select REFRESH purge_table Lateral'''.split()
TEXTS = ["'" + text + "'" for text in TEXTS] + ["''", "' moveout'", "'mergeout '", "' t'", "'t '", "'t u'", "'t-- u'"]

# Texts behind DATE that are no days.
NO_DAYS = """2024-02-30 2023-02-29 1900-02-29 0000-01-01 10000-01-01 2024-00-01 2024-13-01 2024-01-00 2024-04-31 2024-1-01 2024-01-1 24-01-01 2024-1-001
2024/01/01 20240101 2024-01-01T -001-01-01 +024-01-01 2024-0a-01 today""".split()
NO_DAYS = ["'" + text + "'" for text in NO_DAYS] + ["''", "' 2024-01-01'", "'2024-01-01 '", "'2024 01 01'"]


def is_day(text):
    """Whether a text is that of a day: YYYY-MM-DD."""
    if not re.fullmatch('[0-9]{4}-[0-9]{2}-[0-9]{2}', text):
        return False
    try:
        datetime.date(int(text[:4]), int(text[5:7]), int(text[8:]))
    except ValueError:
        return False
    return True


def classes(token):
    """The terminals of the grammar that a token is."""
    if token[0] == "'":
        inner = token[1:-1]
        is_name = re.fullmatch('[A-Za-z_][A-Za-z0-9_]*', inner) and inner.upper() not in KEYWORDS
        return {'text'} | ({'day'} if is_day(inner) else set()) | ({'task'} if inner in ('moveout', 'mergeout') else set()) | ({'spelled'} if is_name else set())
    if token.isdigit():
        n = int(token)
        return {'int'} | ({'width'} if n < 2 ** 32 else set()) | ({'eight'} if 1 <= n <= 8 else set())
    if token.upper() in KEYWORDS:
        return {token.upper()}
    if token[0].isalpha() or token[0] == '_':
        return {'name'}
    return {token}


KEYWORDS = set('''ADD ALTER AND AS ASC AT AUTO BETWEEN BIGINT BLOCK_DICT BOOLEAN BY COLUMN COMMIT COPY COUNT CREATE DATE DEFAULT DELETE DELTAVAL DESC DO_TM_TASK
DROP ENCODING EPOCH EXPLAIN FALSE FROM GET_AHM_EPOCH GET_CURRENT_EPOCH GET_LAST_GOOD_EPOCH GROUP HAVING IN INNER INSERT INT INTEGER INTO IS JOIN
LATEST LIMIT MAKE_AHM_NOW MAX MIN NOT NULL ON OR ORDER OVER PARTITION PLAIN PROJECTION PURGE_TABLE RANK REFRESH RLE ROLLBACK ROW_NUMBER SELECT
SET SET_AHM_EPOCH START_REFRESH SUM TABLE TRUE UPDATE VALUES VARCHAR WHERE'''.split())


def nullable():
    done = set()
    while True:
        more = {h for h, bodies in RULES.items() for b in bodies if all(x in done for x in b)} - done
        if not more:
            return done
        done |= more


NULLABLE = nullable()


def place(tokens):
    """0 where the tokens spell a statement, else one more than the length of their longest front that some statement begins with."""
    chart = [set()]

    def close(k):
        work = list(chart[k])
        while work:
            head, body, dot, origin = work.pop()
            new = []
            if dot < len(body):
                want = body[dot]
                if want in RULES:
                    new += [(want, tuple(b), 0, k) for b in RULES[want]]
                    if want in NULLABLE:
                        new.append((head, body, dot + 1, origin))
            else:
                new += [(h, b, d + 1, o) for (h, b, d, o) in chart[origin] if d < len(b) and b[d] == head]
            for item in new:
                if item not in chart[k]:
                    chart[k].add(item)
                    work.append(item)

    chart[0] = {(START, tuple(b), 0, 0) for b in RULES[START]}
    close(0)
    for k, token in enumerate(tokens):
        kinds = classes(token)
        chart.append({(h, b, d + 1, o) for (h, b, d, o) in chart[k] if d < len(b) and b[d] in kinds})
        if not chart[k + 1]:
            return k + 1
        close(k + 1)
    whole = any(h == START and d == len(b) and o == 0 for (h, b, d, o) in chart[len(tokens)])
    return 0 if whole else len(tokens) + 1


def sentence(head, depth, rng):
    """A random string of tokens of a production, with few levels below it."""
    bodies = RULES[head]
    if depth <= 0:
        shortest = min(cost(b) for b in bodies)
        bodies = [b for b in bodies if cost(b) == shortest]
    out = []
    for x in rng.choice(bodies):
        if x in RULES:
            out += sentence(x, depth - 1, rng)
        elif x in SAMPLES:
            out.append(rng.choice(SAMPLES[x]))
        else:
            out.append(x.lower() if rng.random() < 0.2 else x)
    return out


COSTS = {}


def cost(body):
    return sum(COSTS.get(x, 99) if x in RULES else 1 for x in body)


def costs():
    changed = True
    while changed:
        changed = False
        for head, bodies in RULES.items():
            best = min(cost(b) for b in bodies) + 0.01
            if best < COSTS.get(head, 99):
                COSTS[head] = best
                changed = True


def main():
    costs()
    rng = random.Random(11)
    wrong = ['?', ')', ',', 'FROM', 'NULL', "'x'", '3', 'zz', 'REFRESH', '*', '\\step', 'AND']
    cases = {}

    def add(tokens):
        cases.setdefault(' '.join(tokens), place(tokens))

    # every production of every nonterminal stands in one of these
    sentences = []
    for body in RULES[START]:
        for _ in range(6):
            tokens = []
            for x in body:
                tokens += sentence(x, rng.choice([3, 7, 12]), rng) if x in RULES else [rng.choice(SAMPLES[x]) if x in SAMPLES else x]
            sentences.append(tokens)
    for body in RULES['function']:
        sentences.append(['SELECT'] + [rng.choice(SAMPLES[x]) if x in SAMPLES else x for x in body])
    sentences.sort(key=len)
    seen = set()
    for tokens in sentences:
        if len(tokens) > 60 or len(cases) > 1500:
            continue
        add(tokens)
        for k in range(len(tokens) + 1):
            front = ' '.join(tokens[:k])
            if front in seen:
                continue
            seen.add(front)
            add(tokens[:k])
            add(tokens[:k] + [rng.choice(wrong)] + tokens[k:k + 2])
    # what a function's parentheses hold
    for function in ('SET_AHM_EPOCH', 'DO_TM_TASK', 'PURGE_TABLE', 'REFRESH', 'MAKE_AHM_NOW'):
        for held in TEXTS if function != 'MAKE_AHM_NOW' else TEXTS[:2]:
            add(['SELECT', function, '(', held, ')'])
        for held in (['7'], ['-', '7'], ['t'], ['LATEST'], ["'t'", ',', "'t'"], ["'moveout'", 'AND']):
            add(['SELECT', function, '('] + held + [')'])
        add(['SELECT', function, 'FROM', 't'])
        add(['SELECT', '(', function, '(', ')', ')'])
    # windows: which items go together, and what may stand behind them
    windows = """SELECT RANK ( ) OVER ( ) , COUNT ( * ) FROM t
SELECT g , RANK ( ) OVER ( ORDER BY v DESC ) FROM s GROUP BY g
SELECT g , RANK ( ) OVER ( ORDER BY v DESC ) FROM s WHERE v = 1 HAVING v = 1
SELECT COUNT ( * ) , RANK ( ) OVER ( ) FROM t
SELECT COUNT ( * ) , COUNT ( * ) OVER ( ) FROM t
SELECT COUNT ( * ) + 1 OVER ( ) FROM t
SELECT RANK ( ) OVER ( ) , 1 + COUNT ( * ) FROM t
SELECT RANK ( ) OVER ( ) , ( COUNT ( a ) ) OVER ( ) FROM t
SELECT RANK ( ) OVER ( ) , - SUM ( a ) OVER ( ) FROM t
SELECT RANK ( ) OVER ( ) , NOT COUNT ( a ) OVER ( ) FROM t
SELECT RANK ( ) OVER ( ) + 1 FROM t
SELECT COUNT ( * ) OVER ( ) = 1 FROM t
SELECT SUM ( a ) OVER ( ) OVER ( ) FROM t
SELECT ( COUNT ( * ) ) OVER ( ) FROM t
SELECT ( RANK ( ) OVER ( ) ) FROM t
SELECT 1 + RANK ( ) OVER ( ) FROM t
SELECT - RANK ( ) OVER ( ) FROM t
SELECT NOT RANK ( ) OVER ( ) FROM t
SELECT RANK ( ) OVER ( ) , MIN ( a ) FROM t
SELECT MIN ( a ) OVER ( ) FROM t
SELECT MAX ( a ) , RANK ( ) OVER ( ) FROM t
SELECT a , b , SUM ( a ) OVER ( ) , c , a + b AS d , COUNT ( a ) OVER ( ) AS e FROM t
SELECT a , SUM ( a ) OVER ( ) , SUM ( a ) FROM t
SELECT a , SUM ( a ) OVER ( ) , SUM ( a ) OVER ( ) , COUNT ( * ) AS n FROM t
SELECT SUM ( a ) , b , SUM ( a ) OVER ( ) FROM t
SELECT SUM ( a ) * 2 , COUNT ( b ) BETWEEN 1 AND 2 , COUNT ( * ) IN ( 1 , 2 ) , SUM ( a ) - b IS NULL AND TRUE OR FALSE , COUNT ( a ) > 1 AS x FROM t GROUP BY b HAVING COUNT ( * ) > 1
SELECT SUM ( COUNT ( * ) ) OVER ( ) FROM t
SELECT SUM ( SUM ( a ) OVER ( ) ) OVER ( ) FROM t
SELECT COUNT ( a BETWEEN 1 AND 2 OR b IN ( 1 ) ) OVER ( ) FROM t
SELECT COUNT ( ) OVER ( ) FROM t
SELECT COUNT ( * , 1 ) OVER ( ) FROM t
SELECT SUM ( * ) OVER ( ) FROM t
SELECT RANK ( a ) OVER ( ) FROM t
SELECT RANK ( * ) OVER ( ) FROM t
SELECT ROW_NUMBER ( 1 ) OVER ( ) FROM t
SELECT RANK OVER ( ) FROM t
SELECT RANK ( ) FROM t
SELECT ROW_NUMBER ( ) , 1 FROM t
SELECT RANK ( ) OVER FROM t
SELECT RANK ( ) OVER w FROM t
SELECT RANK ( ) AS r OVER ( ) FROM t
SELECT RANK ( ) OVER ( PARTITION a ) FROM t
SELECT RANK ( ) OVER ( PARTITION BY ) FROM t
SELECT RANK ( ) OVER ( PARTITION BY a + 1 ) FROM t
SELECT RANK ( ) OVER ( PARTITION BY 1 ) FROM t
SELECT RANK ( ) OVER ( PARTITION BY a DESC ) FROM t
SELECT RANK ( ) OVER ( PARTITION BY a , t . b ORDER BY t . c DESC , d ASC , e ) FROM t
SELECT RANK ( ) OVER ( ORDER BY a PARTITION BY b ) FROM t
SELECT RANK ( ) OVER ( ORDER BY 1 ) FROM t
SELECT RANK ( ) OVER ( ORDER BY a + 1 ) FROM t
SELECT RANK ( ) OVER ( ORDER BY a , ) FROM t
SELECT RANK ( ) OVER ( ORDER BY a ) , FROM t
SELECT RANK ( ) OVER ( ) FROM t ORDER BY 1 DESC LIMIT 3
SELECT RANK ( ) OVER ( ) FROM t JOIN u ON COUNT ( * ) = 1
SELECT a FROM t WHERE RANK ( ) OVER ( ) = 1
SELECT a FROM t WHERE COUNT ( * ) OVER ( ) = 1
SELECT a FROM t GROUP BY a HAVING COUNT ( * ) OVER ( ) = 1
SELECT a FROM t ORDER BY RANK ( ) OVER ( )
SELECT * , RANK ( ) OVER ( ) FROM t
SELECT RANK ( ) OVER ( ) , * FROM t
AT EPOCH LATEST SELECT RANK ( ) OVER ( ORDER BY a ) FROM t
EXPLAIN SELECT COUNT ( a ) OVER ( PARTITION BY b ) AS n FROM t
UPDATE t SET a = RANK ( ) OVER ( )
UPDATE t SET a = COUNT ( * ) OVER ( )
DELETE FROM t WHERE SUM ( a ) OVER ( ) = 1
SELECT a AS rank FROM t
SELECT over FROM t
SELECT rank ( ) over ( partition by a order by b desc ) from t
SELECT ranks , overs , row_numbers , partitions FROM t
CREATE TABLE rank ( a INT )
CREATE TABLE t ( partition INT )"""
    for text in windows.split('\n'):
        add(text.split())
    # a new column
    columns = """ALTER TABLE t ADD COLUMN a INTEGER DEFAULT 7
ALTER TABLE t ADD COLUMN a VARCHAR ( 4 ) NOT NULL DEFAULT 'x'
ALTER TABLE t ADD COLUMN a DATE NOT NULL DEFAULT DATE '2024-02-29'
ALTER TABLE t ADD COLUMN a DATE DEFAULT DATE '2023-02-29'
ALTER TABLE t ADD COLUMN a INT DEFAULT - 7
ALTER TABLE t ADD COLUMN a INT DEFAULT - - 7
ALTER TABLE t ADD COLUMN a INT DEFAULT ( 7 )
ALTER TABLE t ADD COLUMN a INT DEFAULT 7 + 1
ALTER TABLE t ADD COLUMN a INT DEFAULT b
ALTER TABLE t ADD COLUMN a INT DEFAULT
ALTER TABLE t ADD COLUMN a INT
ALTER TABLE t ADD COLUMN a INT NULL DEFAULT 1
ALTER TABLE t ADD COLUMN a INT DEFAULT 1 NOT NULL
ALTER TABLE t ADD COLUMN a INT DEFAULT NULL , b INT DEFAULT 1
ALTER TABLE t ADD COLUMN ( a INT ) DEFAULT 1
ALTER TABLE t ADD COLUMN a DEFAULT 1
ALTER TABLE t ADD a INT DEFAULT 1
ALTER TABLE t COLUMN a INT DEFAULT 1
ALTER TABLE t DROP COLUMN a
ALTER TABLE t . u ADD COLUMN a INT DEFAULT 1
ALTER PROJECTION t ADD COLUMN a INT DEFAULT 1
ALTER t ADD COLUMN a INT DEFAULT 1
ALTER TABLE add ADD COLUMN a INT DEFAULT 1
ALTER TABLE t ADD COLUMN column INT DEFAULT 1
ALTER TABLE t ADD COLUMN columns INT DEFAULT 1
ADD COLUMN a INT DEFAULT 1
CREATE TABLE t ( default INT )
CREATE TABLE t ( a INT DEFAULT 1 )
CREATE TABLE alter ( a INT )
alter table t add column a boolean default true"""
    for text in columns.split('\n'):
        add(text.split())
    for text in (windows + '\n' + columns).split('\n'):
        tokens = text.split()
        if cases[text] == 0:
            for k in range(len(tokens) + 1):
                add(tokens[:k])
                add(tokens[:k] + [rng.choice(wrong + ['OVER', '(', 'COUNT'])] + tokens[k + 1:])
    # days: wherever a literal or a primary may stand, and with what is nearly one
    fronts = {
        'INSERT INTO t VALUES (': ')', 'INSERT INTO t VALUES ( 1 ,': ') , ( 2 )', 'SELECT': 'FROM t', 'SELECT a FROM t WHERE': '', 'SELECT a FROM t WHERE a >=': 'AND b = 1',
        'SELECT a FROM t WHERE a IN (': ", DATE '2024-03-01' )", 'SELECT a FROM t WHERE a BETWEEN': "AND DATE '2024-12-31'",
        "SELECT a FROM t WHERE a BETWEEN DATE '2024-01-01' AND": '', 'SELECT MAX (': ') FROM t', 'UPDATE t SET a =': 'WHERE b = 2', 'DELETE FROM t WHERE NOT ( a <': ')',
    }
    for front, back in fronts.items():
        for day in (SAMPLES['day'] + NO_DAYS if front in ('INSERT INTO t VALUES (', 'SELECT a FROM t WHERE') else [SAMPLES['day'][0], NO_DAYS[0]]):
            add(front.split() + ['DATE', day] + back.split())
        for held in ([], ['2024'], ['a'], ['-', "'2024-02-29'"], ['(', "'2024-02-29'", ')'], ['NULL'], ['DATE', "'2024-02-29'"], ["'2024-02-29'", "'2024-02-29'"]):
            add(front.split() + ['DATE'] + held + back.split())
        add(front.split() + ['-', 'DATE', "'2024-02-29'"] + back.split())
        add(front.split() + ['date', "'2024-02-29'"] + back.split())
    for kind in (['DATE'], ['date', 'NOT', 'NULL'], ['DATE', "'2024-02-29'"], ['DATE', '(', '10', ')'], ['DATE', 'VARCHAR'], ['-', 'DATE']):
        add(['CREATE', 'TABLE', 't', '(', 'a'] + kind + [',', 'b', 'Date', ')'])
    for text in ('CREATE TABLE date ( a INT )', 'CREATE TABLE t ( date INT )', 'CREATE TABLE t ( date DATE )', 'SELECT date FROM t', 'SELECT a AS date FROM t', 'SELECT a FROM date',
                 'SELECT t . date FROM t', 'DROP TABLE DATE', 'INSERT INTO date VALUES ( 1 )', 'SELECT a FROM t ORDER BY date', 'UPDATE t SET date = 1', 'SELECT dates FROM t', 'SELECT _date FROM t'):
        add(text.split())
    add(['SELECT', 'PURGE_TABLE', '(', "'date'", ')'])
    cases["SELECT a FROM t WHERE a=DATE'2024-02-29'"] = 0
    # parentheses: 32 may stand in one another
    for n in (31, 32, 33, 40):
        text = ['SELECT'] + ['('] * n + ['a'] + [')'] * n + ['FROM', 't']
        cases[' '.join(text)] = 0 if n <= 32 else 34
        text = ['SELECT', 'a', 'FROM', 't', 'WHERE', 'COUNT'] + ['('] * n
        cases[' '.join(text)] = 6
        text = ['SELECT', 'SUM', '('] + ['('] * n + ['1'] + [')'] * n + [')', 'FROM', 't']
        cases[' '.join(text)] = 0 if n <= 32 else 36
        for back in (['OVER', '(', 'PARTITION', 'BY', 'a', ')'], ['+', '1']):
            for function in ('SUM', 'COUNT'):
                text = ['SELECT', function, '('] + ['('] * n + ['1'] + [')'] * n + [')'] + back + ['FROM', 't']
                cases[' '.join(text)] = 0 if n <= 32 else 36
        text = ['SELECT', 'RANK', '(', ')', 'OVER', '(', ')', ',', 'COUNT', '('] + ['('] * n + ['1'] + [')'] * n + [')', 'OVER', '(', ')', 'FROM', 't']
        cases[' '.join(text)] = 0 if n <= 32 else 43
        text = ['SELECT', 'RANK', '(', ')', 'OVER', '(', ')', ','] + ['('] * n + ['1'] + [')'] * n + ['FROM', 't']
        cases[' '.join(text)] = 0 if n <= 32 else 41
        text = ['SELECT', 'COUNT', '(', '*', ')', '+'] + ['('] * n + ['1'] + [')'] * n + ['FROM', 't']
        cases[' '.join(text)] = 0 if n <= 32 else 39
    for text, want in sorted(cases.items()):
        print('%d %s' % (want, text))


if __name__ == '__main__':
    main()
