"""Folders that the tests of stops fill and hold against what was announced."""
import subprocess


def run(program, folder, script):
    done = subprocess.run([program, folder, script], stdout=subprocess.PIPE)
    return done.returncode, done.stdout.decode()


class Folder:
    """A folder, and the rows that each transaction of it left."""

    def __init__(self, program, place):
        self.program, self.place, self.commits, self.tables = program, place, {}, 0
        self.script, self.make_room = place + '.sql', lambda: None

    def say(self, lines):
        with open(self.script, 'w') as f:
            f.write('\n'.join(lines) + '\n')

    def now(self):
        """The closed epoch and the rows that the folder reopens to."""
        self.say(['SELECT GET_CURRENT_EPOCH();', 'SELECT a, b FROM t;', 'SELECT b FROM t;'] + ['SELECT x FROM t%d;' % i for i in range(self.tables)])
        status, text = run(self.program, self.place, self.script)
        assert status in (0, 1), 'the folder opens with status %d' % status
        lines = text.split('\n')
        epoch = int(lines[0].split()[1]) - 1
        end = next(i for i, line in enumerate(lines) if line.endswith('rows)'))
        pairs = [tuple(line.split('|')) for line in lines[1:end]]
        after = next(i for i, line in enumerate(lines) if i > end and line.endswith('rows)'))
        assert sorted(lines[end + 1:after]) == sorted(b for _, b in pairs), 'the projections differ'
        assert 'ERROR' not in '\n'.join(lines[after:]), 'a table is gone'
        return epoch, sorted(pairs)

    def rows_to(self, epoch):
        last = max((e for e in self.commits if e <= epoch), default=None)
        return sorted(self.commits[last]) if last is not None else []

    def begin(self):
        self.say(['CREATE TABLE t (a INTEGER, b VARCHAR(8));', 'CREATE PROJECTION by_b (b) AS SELECT b FROM t ORDER BY b;', 'CREATE TABLE gone (x INTEGER);'])
        status, text = run(self.program, self.place, self.script)
        assert status == 0, 'it begins with status %d: %s' % (status, text)

    def transactions(self, dice, first, count):
        """So many transactions from an epoch on, with moveouts and new tables between them: the script and the rows after each epoch."""
        lines, planned, made = [], {}, self.tables
        there = self.rows_to(first - 1)
        for epoch in range(first, first + count):
            rows = [(str(dice.randrange(1000)), 'b%d' % dice.randrange(50)) for _ in range(dice.randrange(1, 40))]
            lines.append('INSERT INTO t VALUES %s;' % ', '.join("(%s, '%s')" % row for row in rows))
            there = there + rows
            key, change = 'b%d' % dice.randrange(50), dice.randrange(4)
            if change == 0:
                lines.append("DELETE FROM t WHERE b = '%s';" % key)
                there = [row for row in there if row[1] != key]
            elif change == 1:
                lines.append("UPDATE t SET a = a + 1 WHERE b = '%s';" % key)
                there = [(str(int(a) + 1), b) if b == key else (a, b) for a, b in there]
            lines.append('COMMIT;')
            planned[epoch] = there
            what = dice.randrange(9)
            if what in (0, 1):
                lines.append("SELECT DO_TM_TASK('moveout');")
            elif what == 2:
                lines.append('\\step;')
            elif what in (3, 4) and made < 20:
                lines.append('CREATE TABLE t%d (x INTEGER);' % made)
                made += 1
            elif what > 4:
                lines += dice.choice(self.others(dice, made))
            lines.append('SELECT GET_LAST_GOOD_EPOCH();')
        return lines, planned

    def others(self, dice, made):
        """Statements of each other kind that writes; they change no row of t."""
        late = ['CREATE PROJECTION late (a, b ENCODING RLE) AS SELECT a, b FROM t ORDER BY b;', "SELECT REFRESH('t');"]
        return [
            ["SELECT DO_TM_TASK('moveout');", "SELECT DO_TM_TASK('mergeout');"],
            ["SELECT DO_TM_TASK('moveout');", 'SELECT MAKE_AHM_NOW();', "SELECT PURGE_TABLE('t');"],
            late, ['DROP PROJECTION late;'], [late[0], 'SELECT START_REFRESH();', '\\step;', '\\step;', '\\step;'],
            ['INSERT INTO gone VALUES (1);', 'ROLLBACK;', 'DROP TABLE gone;'],
            ['ALTER TABLE t%d ADD COLUMN y%d INTEGER DEFAULT 7;' % (dice.randrange(made), dice.randrange(100))] if made else late,
        ]

    def audited(self):
        """The epoch of the verdict on the folder, which is AUDIT YES."""
        done = subprocess.run([self.program, self.place, '--audit'], stdout=subprocess.PIPE)
        words = done.stdout.decode().split()
        assert done.returncode == 0 and words[:2] == ['AUDIT', 'YES'], 'the verdict is %s' % ' '.join(words)
        return int(words[2])

    def holds(self, good, last):
        """The folder passes the audit, and reopens to the rows up to the one epoch that is told there, no earlier than the good one."""
        told = self.audited()
        epoch, here = self.now()
        assert told == epoch, 'the audit told epoch %d, and it reopens to %d' % (told, epoch)
        assert good <= epoch <= last, 'epoch %d after the announced %d' % (epoch, good)
        assert here == self.rows_to(epoch), 'rows of epoch %d aren\'t those of its transactions' % epoch


def announced(text):
    """The last good epochs and the number of tables that whole lines announce; a line that was cut short announces nothing."""
    told = text.split('\n')[:-1]
    return [int(line.split()[1]) for line in told if line.startswith('LGE ')], sum(line == 'CREATE TABLE' for line in told)
