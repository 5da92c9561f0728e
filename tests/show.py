#!/usr/bin/env python3
"""Holds bin/vert-show, which decodes a folder by docs/FORMATS.md alone, against the program that wrote the folder.

    tests/show.py [PROGRAM [PART ..]]      default: crates/vert/out/vert, and all parts: example words scripts odd_folders ..

Over the folders that the scripts of examples/ and tests/ leave, with and without steps of the mover and the end, and over odd ones made here:
nothing is told damaged, the rows decoded are those that the program prints, files are written as FORMATS.md says, and a dump loads again to the
same schema and rows. Where the program was killed nothing is told damaged, and the rows decoded are those that it reopens to. Over small folders
with each byte changed, and each file cut or removed: vert-show ends well, tells a damage wherever the program ends with status 6 (over one of
which each file is read exactly there), and where it tells none the program prints the rows decoded. The last line is 'N passed, M failed'.
"""
import contextlib
import glob
import hashlib
import io
import os
import random
import re
import shutil
import subprocess
import sys
import tempfile
import time

TOP = os.path.dirname(os.path.dirname(os.path.abspath(__file__)))
SHOW = os.path.join(TOP, 'bin/vert-show')
sys.dont_write_bytecode = True
sys.path.insert(0, os.path.join(TOP, 'tools'))
import block_cases  # noqa: E402
import folders  # noqa: E402
from huddwerys_folder import dump, look, schema  # noqa: E402
from huddwerys_folder.blocks import DeleteVector, PositionIndex, block_values  # noqa: E402
from huddwerys_folder.catalogue import Container  # noqa: E402
from huddwerys_folder.folder import Damaged, Folder, seen_in  # noqa: E402
from huddwerys_folder.spelling import Malformed, rank, value_at, vint_at  # noqa: E402

PASSED, FAILED = [], []


def holds(what, fact, *told):
    (PASSED if fact else FAILED).append(what)
    if not fact:
        print(f'{what}:', *told)


def is_same(what, wanted, got):
    holds(what, wanted == got, f'wanted {str(wanted)[:300]!r}, got {str(got)[:300]!r}')


# ---- the program, vert-show, and what is decoded


def run(folder, script, *options, cwd=None):
    """The status and the output of a run over a script, given as its text."""
    with tempfile.NamedTemporaryFile(suffix='.sql') as file:
        file.write(script if isinstance(script, bytes) else script.encode())
        file.flush()
        done = subprocess.run([PROGRAM, folder, *options, file.name], stdout=subprocess.PIPE, cwd=cwd)
    return done.returncode, done.stdout


def shown(*words):
    """The status, the output and the standard error of vert-show."""
    done = subprocess.run([SHOW, *words], stdout=subprocess.PIPE, stderr=subprocess.PIPE)
    return done.returncode, done.stdout.decode(), done.stderr.decode()


def files_of(place):
    return {name: hashlib.sha256(open(os.path.join(place, name), 'rb').read()).hexdigest() for name in os.listdir(place)}


def line(row):
    """A row as the program prints it."""
    fields = []
    for value in row:
        text = b'' if value is None else value if isinstance(value, bytes) else str(value).encode()
        text = (b't' if value else b'f') if isinstance(value, bool) else text
        fields.append(b'"' + text.replace(b'"', b'""') + b'"' if any(mark in text for mark in (b'|', b'"', b'\r', b'\n')) else text)
    return b'""' if fields == [b''] else b'|'.join(fields)


def decoded_rows(seen, table, projection):
    """The rows of a projection that has all columns of its table, at the last good epoch, in ascending order."""
    epoch, rows = seen.catalogue.last_good_epoch(), []
    places = [place for _, place in sorted((it.place, place) for place, it in enumerate(projection.columns))]
    for stored in seen.folder.containers(table, projection):
        deleted = stored.deleted()
        for first, values, epochs in stored.blocks(places):
            rows += [[column[i] for column in values] for i in seen_in(first, epochs, deleted, epoch)]
    return sorted(rows, key=lambda row: [rank(value) for value in row])


def printed_rows(rows):
    return b''.join(line(row) + b'\n' for row in rows) + b'(%d rows)\n' % len(rows)


def all_decoded(seen):
    """What the program prints when it is asked for all tables, by what was decoded."""
    return b''.join(printed_rows(decoded_rows(seen, table, table.supers()[0])) for table in seen.catalogue.tables)


def asking_all(seen):
    return ''.join(f'SELECT * FROM {table.name};\n' for table in seen.catalogue.tables)


# ---- single files

# hexadecimal; nothing at all is none of these either
WRONG = {
    'vint': '''
        80 8000 808000 ffffffffffffffffff02 ffffffffffffffffffff01 80808080808080808000
    ''',
    'value': '''
        01 0100000000000000 018000000000000000 02 0200000001 0200000001ff 0200000002c080 0200000003eda080 05 ff
    ''',
    'block': '''
        00 0401 040200 05 0400 040100ff 01 0100 010100 01010000 010200010001 01020301030100 010203010301 0101008108 0102030104ff0700
        01020380080401 02000000000000000000 020100000000000000 0201800000000000000001 0201000000000000000002 0201000000000000000100
        02017fffffffffffffff0100 02027fffffffffffffff0102 0300 03010001 0301000101 03020403020001 03020303020001 030203040100
        0302030402000102 03020304020002 0301000200 030100010000
    ''',
    'index of 2 rows': '''
        01 02 0200 02000000 0201000304 0200010304 0200000403 020000030400 030000030400 820000000304
    ''',
    'delete vector of 3 rows': '''
        00 01 0100 010001 010302 010000 01000200 02000202 020002010202 0200020202
    ''',
}
# what is too much of a kind
LONG = {'value': '020000fde9' + '61' * 65001, 'block': '048108' + '00' * 1025}
RIGHT = {
    'vint': {
        '00': 0, '7f': 127, '8001': 128, 'ffffffffffffffffff01': 2**64 - 1,
    },
    'value': {
        '00': None, '017fffffffffffffff': 2**63 - 1, '018000000000000001': -(2**63) + 1, '0200000000': b'', '0200000002c3a9': b'\xc3\xa9',
        '03': False, '04': True,
    },
    'block': {
        '040100': [None], '010203020401': [False, False, True], '0202ffffffffffffffff0102': [-1, 0],
        '02030000000000000000000000': [None, None, None], '0302000303000100': [None, False, None],
    },
    'index of 2 rows': {
        '0200000304': (False, True), '0200000000': (None, None),
    },
    'delete vector of 3 rows': {
        '010102': {1: 2}, '0200020102': {0: 2, 2: 2},
    },
}


def read_as(kind, data):
    """What the bytes are that spell one thing of a kind."""
    if kind == 'block':
        return block_values(data, 'AUTO')
    if kind.startswith('index'):
        entry = PositionIndex(data, 2).entries[0]
        return entry.least, entry.greatest
    if kind.startswith('delete'):
        return DeleteVector(data, Container(1, 3, 1, 1, 0, 9, 2, 1)).epochs
    part, at = (vint_at if kind == 'vint' else value_at)(data, 0)
    is_same(f'{kind} {data.hex()}: its end', len(data), at)
    return part


def pieces(_):
    """What is spelled wrong in one way each, and what is spelled right."""
    for kind, spelled in RIGHT.items():
        for text, wanted in spelled.items():
            is_same(f'{kind} {text}', repr(wanted), repr(read_as(kind, bytes.fromhex(text))))
    for kind, spelled in WRONG.items():
        for text in ['', LONG.get(kind, ''), *spelled.split()]:
            try:
                got = read_as(kind, bytes.fromhex(text))
                holds(f'{kind} {text[:40]}: refused', False, got)
            except Malformed:
                holds(f'{kind} {text[:40]}: refused', True)
    for values in block_cases.lists(random.Random(5)):
        for made in (block_cases.plain(values), block_cases.rle(values), block_cases.delta(values), block_cases.dictionary(values)):
            if made:
                is_same('a block made by other means', repr(values), repr(block_values(made, 'AUTO')))


# ---- a whole folder


def examine(name, place, work, is_written=True):
    """That a folder is told well, decoded to the rows that the program prints, written as it has to be, and dumped to the same."""
    before = files_of(place)
    status, text, told = shown(place, '--check')
    is_same(f'{name}: the status of vert-show', (0, ''), (status, told))
    holds(f'{name}: the verdict', 'No damage: every value was read' in text, text[-300:])
    seen = look.Look(Folder(place))
    if not seen.catalogue:
        return
    if is_written:
        held_as_written(name, seen)
    copy, out, new = (os.path.join(work, it) for it in ('copy', 'out', 'new'))
    for it in (copy, out, new):
        shutil.rmtree(it, ignore_errors=True)
    shutil.copytree(place, copy)
    wanted = run(copy, asking_all(seen))
    is_same(f'{name}: the rows decoded', wanted, (0, all_decoded(seen)))
    status, text, told = shown(place, '--dump', out)
    is_same(f'{name}: the status of its dump', (0, ''), (status, told))
    is_same(f'{name}: the folder behind it', before, files_of(place))
    load(name, out, new)
    is_same(f'{name}: the rows loaded again', wanted, run(new, asking_all(seen)))
    again = look.Look(Folder(new))
    if again.catalogue:
        again.check()
    holds(f'{name}: the folder loaded again', again.is_well(), list(map(str, again.damages.values())), again.breaches)
    is_same(f'{name}: its schema', list_of(seen), list_of(again))


def list_of(seen):
    return [statement for statement, _ in schema.creating(seen.catalogue.tables)] if seen.catalogue else []


def load(name, out, new):
    scripts = sorted(glob.glob(os.path.join(out, 'dump*.sql')), key=lambda it: int((re.findall(r'\.(\d+)\.sql', it) or ['1'])[0]))
    for script in scripts:
        status, text = run(new, open(script, 'rb').read(), cwd=out)
        is_same(f'{name}: the status of {os.path.basename(script)}', 0, status)
        holds(f'{name}: its lines', b'ERROR' not in text, text[:300])


def held_as_written(name, seen):
    """Rows stand in the order of their projection, an index tells the least and the greatest value, an AUTO block is the shortest."""
    encoders = (block_cases.rle, block_cases.delta, block_cases.dictionary, block_cases.plain)
    for table, projection in seen.catalogue.projections():
        for stored in seen.folder.containers(table, projection):
            keys = []
            for _, values, epochs in stored.blocks(range(len(projection.columns))):
                for *row, epoch in zip(*values, epochs):
                    keys.append(([rank(row[place]) for place in projection.sort], list(map(rank, row)), epoch))
            holds(f'{name}: the order of {projection.name}', all(a <= b for a, b in zip(keys, keys[1:])))
            for column in stored.with_files:
                with column.folder.opened(column.body_file, column.body_is) as body:
                    for entry, size, _ in column.pieces(body):
                        block = body.read(size)
                        values = block_values(block, column.encoding)
                        ranks = sorted(map(rank, values))
                        is_same(f'{name}: {column.index_is}', [ranks[0], ranks[-1]], [rank(entry.least), rank(entry.greatest)])
                        made = [it for it in (encode(values) for encode in encoders) if it is not None]
                        if column.encoding == 'AUTO':
                            is_same(f'{name}: {column.body_is}', min(made, key=lambda it: (len(it), it[0])), block)
                        else:
                            holds(f'{name}: {column.body_is}', block in made, block.hex())


def scripts(work):
    for script in sorted(glob.glob(os.path.join(TOP, 'examples/*.sql')) + glob.glob(os.path.join(TOP, 'tests/*.sql'))):
        name = os.path.basename(script)[:-4]
        for options in ([], ['--mover', '2'], ['--halt'], ['--mover', '1', '--halt']):
            place = os.path.join(work, 'd')
            shutil.rmtree(place, ignore_errors=True)
            is_begun = os.path.isdir(script[:-4])
            if is_begun:
                shutil.copytree(script[:-4], place)
            done = subprocess.run([PROGRAM, place, *options, script], stdout=subprocess.DEVNULL, cwd=os.path.dirname(script))
            holds(f'{name}: its run', done.returncode in (0, 1), done.returncode)
            examine(' '.join([name, *options]), place, work, not is_begun)


# ---- odd folders

TEXTS = [
    '', ' ', '  x ', '|', '"', '""', "'", "''", 'a|b', 'a"b', '"a"', '\r', '\n', '\r\n', 'a\nb|c"d', '\ufeff', '\ufeffx', 'x\ufeff', 'NULL', 'null',
    '\\', '\\N', '\t', 'é', '日本', '\U0001f600', '\0', 'a\0b', '--', ';', ';--', 't', '0', '-1', ',', '\x7f', '\x85', '\u2028',
]
NUMBERS = [0, 1, -1, 127, 128, 2**31, -(2**31), 2**63 - 1, -(2**63) + 1, 10**18]


def literal(value):
    if value is None or isinstance(value, bool):
        return {None: 'NULL', True: 'TRUE', False: 'FALSE'}[value]
    return str(value) if isinstance(value, int) else "'" + value.replace("'", "''") + "'"


def insert(table, rows):
    return f"INSERT INTO {table} VALUES {', '.join('(' + ', '.join(map(literal, row)) + ')' for row in rows)};\n"


def odd_texts():
    rows = [(text, TEXTS[-1 - i], i) for i, text in enumerate(TEXTS)] + [(None, text, None) for text in TEXTS]
    script = 'CREATE TABLE t (a VARCHAR(40), b VARCHAR(40) NOT NULL, c INTEGER);\n'
    script += 'CREATE TABLE lone (a VARCHAR(40)); CREATE TABLE marked (a VARCHAR(9));\n'
    script += insert('marked', [('\ufeffx',), ('\ufeff',)])
    script += insert('t', rows) + insert('lone', [(text,) for text in TEXTS + [None, None]]) + 'COMMIT;\n'
    return script + "DELETE FROM t WHERE c > 3 AND c < 9; UPDATE t SET a = b, b = '' WHERE c = 12; COMMIT;\n"


def odd_numbers():
    script = 'CREATE TABLE t (a INTEGER, b BOOLEAN, c INTEGER NOT NULL); CREATE TABLE lone (a INTEGER);\n'
    script += 'CREATE TABLE truths (b BOOLEAN); CREATE TABLE none (a INTEGER);\n'
    script += insert('t', [(a, b, c) for a in [*NUMBERS, None] for b in (True, False, None) for c in NUMBERS[:3]])
    return script + insert('lone', [(a,) for a in [*NUMBERS, None]]) + insert('truths', [(True,), (False,), (None,)]) + 'COMMIT;\n'


def odd_encodings():
    """Each encoding over each type, in several blocks and containers, with deletes in the first and behind it."""
    dice = random.Random(3)
    kinds = [('n', 'INTEGER'), ('s', 'VARCHAR(12)'), ('b', 'BOOLEAN'), ('m', 'INTEGER NOT NULL')]
    script = f"CREATE TABLE t ({', '.join(f'{name} {kind}' for name, kind in kinds)});\n"
    for encoding in ('RLE', 'DELTAVAL', 'BLOCK_DICT', 'PLAIN', 'AUTO'):
        columns = [f'{name} ENCODING {encoding if encoding != "DELTAVAL" or "INTEGER" in kind else "AUTO"}' for name, kind in kinds]
        script += f"CREATE PROJECTION in_{encoding.lower()} ({', '.join(columns)}) AS SELECT n, s, b, m FROM t ORDER BY s, m;\n"
    for first in (0, 2500, 2600):
        rows = []
        for i in range(first, 2500 if first == 0 else first + 40):
            text, truth = dice.choice([None, '', 'x', f'text {i}']), dice.choice([None, True, False])
            rows.append((dice.choice([None, i, dice.randrange(9), i * 10**12]), text, truth, i // 3))
        script += insert('t', rows) + "COMMIT;\nSELECT DO_TM_TASK('moveout');\n"
        script += f'DELETE FROM t WHERE n = {first % 9} OR m = 3; COMMIT;\nDELETE FROM t WHERE b AND m < {first + 20}; COMMIT;\n'
    return script


def odd_names():
    """Projections with names that stand in the way of other tables, and a table called as another's first projection."""
    script = '''
        CREATE TABLE y (a INTEGER, b INTEGER); CREATE PROJECTION yy (b, a) AS SELECT b, a FROM y ORDER BY b; DROP PROJECTION y_super;
        CREATE TABLE y_super (c INTEGER);
        CREATE TABLE a (x INTEGER); CREATE PROJECTION stand_in_1 (x) AS SELECT x FROM a; DROP PROJECTION a_super;
        CREATE TABLE b (x INTEGER); CREATE PROJECTION p (x) AS SELECT x FROM b; DROP PROJECTION b_super;
        CREATE PROJECTION b_super (x ENCODING RLE) AS SELECT x FROM a; DROP PROJECTION stand_in_1;
        CREATE PROJECTION a_super (x) AS SELECT x FROM b; DROP PROJECTION p;
        CREATE TABLE s (p INTEGER, q INTEGER); CREATE PROJECTION other (p, q) AS SELECT p, q FROM s; DROP PROJECTION s_super;
        CREATE PROJECTION s_super (q, p) AS SELECT q, p FROM s ORDER BY p; DROP PROJECTION other;
        CREATE TABLE stand_in_1 (z INTEGER);
        CREATE TABLE full (p INTEGER); CREATE PROJECTION spare (p) AS SELECT p FROM full; DROP PROJECTION full_super;
        CREATE PROJECTION full_super (p ENCODING PLAIN) AS SELECT p FROM full; DROP PROJECTION spare;
    '''
    script += ''.join(f'CREATE PROJECTION f{i} (p) AS SELECT p FROM full;\n' for i in range(15))
    for table, row in (('y', (1, 2)), ('y_super', (3,)), ('a', (4,)), ('b', (5,)), ('s', (6, 7)), ('stand_in_1', (8,)), ('full', (9,))):
        script += insert(table, [row, row])
    return script + f"COMMIT; CREATE TABLE {'n' * 120} (a INTEGER);\n"


def odd_widths():
    names = [f'c{i}' for i in range(64)]
    script = f"CREATE TABLE t ({', '.join(name + ' VARCHAR(65000)' for name in names)});\n"
    rows = [['x' * 65000] * 2 + ['y|"' * 20] * 62, [None] * 64, ['z'] * 63 + [''], ['z'] * 64]
    return script + insert('t', rows) + 'COMMIT;\n'


def odd_late():
    """A projection that was made over rows; epochs behind the last good one where the end is left out."""
    return '''
        CREATE TABLE t (a INTEGER, b VARCHAR(5)); INSERT INTO t VALUES (1, 'x'), (2, ''); COMMIT; CREATE PROJECTION late (b) AS SELECT b FROM t;
        CREATE TABLE u (a INTEGER); INSERT INTO u VALUES (1); COMMIT; SELECT DO_TM_TASK('moveout');
        INSERT INTO t VALUES (3, NULL); COMMIT; DELETE FROM t WHERE a = 1; INSERT INTO u VALUES (2); COMMIT; \\step;
        DELETE FROM u; COMMIT; \\step;
        INSERT INTO t VALUES (4, 'y'); COMMIT; \\step;
    '''


ODD = [odd_texts, odd_numbers, odd_encodings, odd_names, odd_widths, odd_late]


def odd_folders(work):
    place = os.path.join(work, 'd')
    for made in ODD:
        for options in ([], ['--mover', '1'], ['--halt']):
            shutil.rmtree(place, ignore_errors=True)
            status, text = run(place, made(), *options)
            name = ' '.join([made.__name__, *options])
            is_same(f'{name}: its run', (0, b''), (status, text[text.find(b'ERROR'):][:200] if b'ERROR' in text else b''))
            examine(name, place, work)


def random_schemas(work):
    """Tables and projections that take each other's names, whatever the program lets stand."""
    place = os.path.join(work, 'd')
    names = [name + behind for name in 'xyz' for behind in ('', '_super', '_super_super')] + ['stand_in_1', 'p', 'q']
    for seed in range(20):
        dice, script = random.Random(seed), ''
        for _ in range(60):
            columns = dice.sample('abc', dice.choice([1, 2, 3, 3]))
            listed, some = ', '.join(columns), ', '.join(it + dice.choice(['', ' ENCODING PLAIN']) for it in columns)
            projection = f'CREATE PROJECTION {dice.choice(names)} ({some}) AS SELECT {listed} FROM {dice.choice(names)}'
            script += dice.choice([
                f'CREATE TABLE {dice.choice(names)} (a INTEGER, b INTEGER, c INTEGER);\n', f'{projection};\n',
                f'{projection} ORDER BY {dice.choice(columns)};\n', f'DROP PROJECTION {dice.choice(names)};\n',
            ])
        script += ''.join(f'INSERT INTO {name} VALUES (1, 2, 3), (NULL, 3, 1);\n' for name in names) + 'COMMIT;\n'
        shutil.rmtree(place, ignore_errors=True)
        holds(f'schema {seed}: its run', run(place, script)[0] in (0, 1))
        examine(f'schema {seed}', place, work)


def small_limits(work):
    """A dump in many scripts and load files."""
    limits = {'MOST_BYTES': 400, 'MOST_ROWS': 7, 'MOST_STATEMENTS': 6, 'INSERT_BYTES': 60}
    kept = {name: getattr(dump, name) for name in limits}
    for made in (odd_texts, odd_numbers, odd_names):
        place, out, new = (os.path.join(work, it) for it in ('d', 'out', 'new'))
        for it in (place, out, new):
            shutil.rmtree(it, ignore_errors=True)
        run(place, made())
        seen = look.Look(Folder(place))
        os.mkdir(out)
        for name, limit in limits.items():
            setattr(dump, name, limit)
        _, names = dump.dump(seen, out, look.Progress('rows'))
        for name, limit in kept.items():
            setattr(dump, name, limit)
        name = f'{made.__name__}, in small files'
        holds(f'{name}: how many', len(names) > 3, names)
        load(name, out, new)
        is_same(f'{name}: the rows', run(place, asking_all(seen)), run(new, asking_all(seen)))


def killed_folders(work):
    """What a program that was killed leaves is no damage, and decoded to what the next one opens to."""
    dice, place, copy, longest, killed = random.Random(4), os.path.join(work, 'd'), os.path.join(work, 'copy'), 1.0, 0
    shutil.rmtree(place, ignore_errors=True)
    kept = folders.Folder(PROGRAM, place)
    kept.begin()
    for turn in range(60):
        epoch, rows = kept.now()
        kept.commits = {epoch: rows}
        lines, _ = kept.transactions(dice, epoch + 1, 20)
        kept.say(lines)
        start, child = time.monotonic(), subprocess.Popen([PROGRAM, place, kept.script], stdout=subprocess.PIPE)
        try:
            text, _ = child.communicate(timeout=dice.random() * longest)
            longest = max(1.5 * (time.monotonic() - start), 0.01)
        except subprocess.TimeoutExpired:
            child.kill()
            text, _ = child.communicate()
            killed += 1
        kept.tables += folders.announced(text.decode())[1]
        seen = look.Look(Folder(place))
        seen.check()
        holds(f'killed folder {turn}: the verdict', seen.is_well(), list(map(str, seen.damages.values())), seen.breaches)
        shutil.rmtree(copy, ignore_errors=True)
        shutil.copytree(place, copy)
        is_same(f'killed folder {turn}: its rows', (0, all_decoded(seen)), run(copy, asking_all(seen)))
    holds('some were killed', killed > 10, killed)


# ---- damaged folders

SMALL = [
    'CREATE TABLE t (a INTEGER); INSERT INTO t VALUES (2), (1); COMMIT;',
    '''CREATE TABLE t (a INTEGER NOT NULL, b VARCHAR(5));
       CREATE PROJECTION p (b ENCODING BLOCK_DICT, a ENCODING DELTAVAL) AS SELECT b, a FROM t ORDER BY b;
       INSERT INTO t VALUES (1, 'x'), (2, NULL), (3, 'b'), (4, ''), (20, 'c'); COMMIT; SELECT DO_TM_TASK('moveout');
       DELETE FROM t WHERE a > 2; COMMIT; INSERT INTO t VALUES (9, 'z'); COMMIT;''',
    '''CREATE TABLE t (f BOOLEAN, n INTEGER);
       CREATE PROJECTION p (n ENCODING RLE) AS SELECT n FROM t; CREATE PROJECTION q (f ENCODING PLAIN, n) AS SELECT f, n FROM t;
       INSERT INTO t VALUES (TRUE, 2), (FALSE, 3), (NULL, 300); COMMIT; SELECT DO_TM_TASK('moveout');
       CREATE PROJECTION late (f) AS SELECT f FROM t; CREATE TABLE u (x INTEGER);''',
]


READ = '''
    CREATE TABLE t (a INTEGER, s VARCHAR(9)); INSERT INTO t VALUES (2, 'x'), (1, NULL), (70, 'b'); COMMIT;
    INSERT INTO t VALUES (3, 'c'), (4, 'x'), (NULL, 'y'); COMMIT; SELECT DO_TM_TASK('moveout'); DELETE FROM t WHERE a = 1; COMMIT;
'''


def changes(files):
    """Other contents: each byte changed in three ways, each file removed, emptied, cut and lengthened."""
    for name, data in sorted(files.items(), key=lambda it: int(it[0])):
        for at, byte in enumerate(data):
            for other in sorted({byte ^ 1, byte ^ 128, (byte + 7) % 256}):
                yield f'{name} at {at}: {other:02x}', {name: data[:at] + bytes([other]) + data[at + 1 :]}
        yield f'{name} removed', {name: None}
        yield f'{name} emptied', {name: b''}
        yield f'{name} cut', {name: data[:-1]}
        yield f'{name} lengthened', {name: data + b'\1'}
    names = sorted(files, key=int)
    for a, b in zip(names, names[1:]):
        yield f'{a} and {b} swapped', {a: files[b], b: files[a]}


def changed_folders(place, script):
    """The folder of a script before and behind each change: what was changed, in turn."""
    shutil.rmtree(place, ignore_errors=True)
    is_same('a small folder', 0, run(place, script)[0])
    files = {name: open(os.path.join(place, name), 'rb').read() for name in os.listdir(place)}
    for what, changed in changes(files):
        for name, data in changed.items():
            path = os.path.join(place, name)
            if data is None:
                os.remove(path)
            else:
                open(path, 'wb').write(data)
        yield what
        for name in changed:
            open(os.path.join(place, name), 'wb').write(files[name])


def damaged_folders(work):
    place, out, copy = (os.path.join(work, it) for it in ('d', 'out', 'copy'))
    for number, script in enumerate(SMALL):
        shutil.rmtree(place, ignore_errors=True)
        run(place, script)
        whole = look.Look(Folder(place))
        for turn, what in enumerate(changed_folders(place, script)):
            damaged_folder(f'small folder {number}, {what}', whole, place, copy, out)
            if turn % 50 == 0:
                status, _, told = shown(place, '--check')
                is_well = 'Traceback' not in told and (status, bool(told)) in ((0, False), (6, True))
                holds(f'small folder {number}, {what}: as a program', is_well, status, told)


def files_that_are_read(work):
    """Of a folder of which each file is read it tells a damage exactly where the program ends with status 6, values of other types aside."""
    place, copy = os.path.join(work, 'd'), os.path.join(work, 'copy')
    for what in changed_folders(place, READ):
        seen = look.Look(Folder(place))
        if seen.catalogue:
            seen.check()
        shutil.rmtree(copy, ignore_errors=True)
        shutil.copytree(place, copy)
        names = [table.name for table in seen.catalogue.tables] if seen.catalogue else ['t']
        status, _ = run(copy, ''.join(f'SELECT * FROM {name}; AT EPOCH 1 SELECT * FROM {name};' for name in names))
        told = [damage.reason for damage in seen.damages.values()] + seen.breaches
        is_of_types = told and all(re.search('NOT NULL|of type|octets$', why) for why in told)
        holds(f'{what}: told by both or neither', (status == 6) == bool(told) or is_of_types, status, told)


def damaged_folder(what, whole, place, copy, out):
    for it in (copy, out):
        shutil.rmtree(it, ignore_errors=True)
    shutil.copytree(place, copy)
    try:
        seen = look.Look(Folder(place))
        with contextlib.redirect_stdout(io.StringIO()):
            seen.print(True)
        if seen.catalogue:
            os.mkdir(out)
            dump.dump(look.Look(Folder(place)), out, look.Progress('rows'))
    except Exception as why:  # noqa: BLE001
        holds(f'{what}: vert-show ends well', False, repr(why))
        return
    status, text = run(copy, asking_all(seen if seen.catalogue else whole))
    if seen.is_well() and seen.catalogue:
        try:
            is_same(f'{what}: told well', (0, all_decoded(seen)), (status, text))
            for table in seen.catalogue.tables:
                rows = [decoded_rows(seen, table, projection) for projection in table.supers()]
                holds(f'{what}: the projections of {table.name}', all(it == rows[0] for it in rows), rows)
        except Damaged as why:
            holds(f'{what}: told well', False, why)
    else:
        holds(f'{what}: told damaged, or nothing is stored', seen.is_fresh() or not seen.is_well())
    if status == 6:
        holds(f'{what}: the program names a damaged file', not seen.is_well(), text)


# ---- the example of FORMATS.md, and words


def contents_of(place):
    return {name: open(os.path.join(place, name), 'rb').read().hex() for name in os.listdir(place)}


def spelled_in(text):
    """The files that stand in a text: a number and bytes, and bytes in the lines below, between lines of words."""
    files, name = {}, None
    for row in text.split('\n'):
        spelled = re.fullmatch(r' {4}(\d+| {4}) *((?:[0-9a-f]{2})+(?: (?:[0-9a-f]{2})+)*)', row)
        if spelled:
            name = spelled[1].strip() or name
            files[name] = files.get(name, '') + spelled[2].replace(' ', '')
    return files


def example(work):
    """The files that FORMATS.md spells, byte for byte, and that the program makes the same of the same script."""
    text = open(os.path.join(TOP, 'docs/FORMATS.md'), encoding='utf-8').read().partition('## A small folder')[2]
    text, _, later = text.partition('A second run with')
    files = spelled_in(text)
    place, made = os.path.join(work, 'd'), os.path.join(work, 'made')
    for it in (place, made):
        shutil.rmtree(it, ignore_errors=True)
    os.mkdir(place)
    for name, data in files.items():
        open(os.path.join(place, name), 'wb').write(bytes.fromhex(data))
    is_same('the files of the example', ['12', '16', '20', '25', '26', '8'], sorted(files))
    status, page, told = shown(place, '--check')
    is_same('the example: its status', (0, ''), (status, told))
    holds('the example: its page', 'CREATE TABLE t (a INTEGER);' in page and '2 rows in 1 container' in page, page)
    seen = look.Look(Folder(place))
    is_same('the example: its rows', b'1\n2\n(2 rows)\n', all_decoded(seen))
    run(made, re.search(r'`(CREATE TABLE t [^`]*)`', text)[1])
    is_same('the example: what the program writes', files, contents_of(made))
    run(made, re.search(r'`(DELETE [^`]*)`', later)[1])
    written = {name: data for name, data in contents_of(made).items() if name not in files}
    is_same('the example: what a DELETE writes', ['28', '33', '34'], sorted(written))
    is_same('the example: its delete vector', spelled_in(later)['28'], written.get('28'))


def words(work):
    place, odd = os.path.join(work, 'd'), os.path.join(work, 'odd')
    shutil.rmtree(place, ignore_errors=True)
    run(place, SMALL[1])
    os.mkdir(odd)
    is_same('an empty folder', (0, ''), (shown(odd)[0], shown(odd)[2]))
    open(os.path.join(odd, 'notes.txt'), 'w').write('x')
    for what, status, asked in [
        ('no word', 2, []), ('two folders', 2, [place, place]), ('an unknown option', 2, [place, '--all']),
        ('no new folder', 2, [place, '--dump']), ('--check and --dump', 2, [place, '--check', '--dump', 'x']),
        ('an absent folder', 3, [os.path.join(work, 'absent')]), ('a folder of others', 3, [odd]),
        ('a file in place of the folder', 5, [os.path.join(odd, 'notes.txt')]), ('a new folder that is there', 4, [place, '--dump', odd]),
        ('a new folder inside', 4, [place, '--dump', os.path.join(place, 'out')]),
        ('a new folder in none', 4, [place, '--dump', os.path.join(work, 'no', 'out')]),
    ]:
        got, text, told = shown(*asked)
        is_same(f'{what}: its status', status, got)
        holds(f'{what}: told in words', told and 'Traceback' not in told, told)
    is_same('help', 0, shown('--help')[0])
    if os.path.exists('/dev/full'):
        done = subprocess.run([SHOW, place], stdout=open('/dev/full', 'w'), stderr=subprocess.PIPE)
        is_same('a full output', (4, False), (done.returncode, b'Traceback' in done.stderr))
    name = sorted(name for name in os.listdir(place) if int(name) % 4 == 0)[0]
    os.remove(os.path.join(place, name))
    status, text, told = shown(place)
    is_same('a missing file', (6, True, True), (status, f'file {name}, ' in told, 'Damaged files' in text))
    os.remove(os.path.join(place, next(name for name in os.listdir(place) if int(name) % 4 == 2)))
    is_same('a missing gate', 6, shown(place)[0])
    out = os.path.join(work, 'out2')
    is_same('a missing gate, dumped', (6, False), (shown(place, '--dump', out)[0], os.path.exists(out)))


def main():
    # in memory where that can be, since each run syncs what it finds
    with tempfile.TemporaryDirectory(dir='/dev/shm' if os.access('/dev/shm', os.W_OK) else None) as work:
        for part in (example, words, pieces, scripts, odd_folders, random_schemas, small_limits, killed_folders, damaged_folders, files_that_are_read):
            if part.__name__ not in (sys.argv[2:] or [part.__name__]):
                continue
            part(work)
            print(f'{part.__name__}: {len(PASSED)} passed so far', file=sys.stderr, flush=True)
    print(f'{len(PASSED)} passed, {len(FAILED)} failed')
    return 1 if FAILED else 0


if __name__ == '__main__':
    PROGRAM = os.path.abspath(sys.argv[1] if len(sys.argv) > 1 else os.path.join(TOP, 'crates/vert/out/vert'))
    sys.exit(main())
