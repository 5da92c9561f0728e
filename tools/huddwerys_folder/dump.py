"""A script and load files that make the newest visible rows of a folder again.

Rows go from the blocks of one projection that has all columns straight into load files. An empty field of a load file is NULL, so a row with
an empty text stands in an INSERT of the script.
"""
import os
import re
from datetime import date

from . import schema
from .catalogue import Catalogue
from .folder import Damaged, seen_in

MOST_BYTES = 64 * 1024 * 1024  # of a load file, and of a script
MOST_ROWS = 16_777_216  # of a load file: so many may be pending
MOST_STATEMENTS = 4_096
INSERT_BYTES = 1024 * 1024
# what a field may have only between quotes; a byte order mark is dropped where it begins a file
QUOTED = re.compile(rb'[|"\r\n]|\A\xef\xbb\xbf')


class Script:
    """dump.sql, and dump.2.sql .. where one script can't hold all statements. They have their names once all is written."""

    def __init__(self, place):
        self.place, self.names, self.file, self.waiting = place, [], None, 0

    def comment(self, text):
        self.write(f'-- {text}\n'.encode())

    def say(self, *statements, loaded=0):
        """Statements of one script, which load so many bytes; rows that wait in memory are moved out before they are too many."""
        if self.waiting and self.waiting + loaded > MOST_BYTES:
            self.write(b"SELECT DO_TM_TASK('moveout');\n", 1)
            self.waiting = 0
        self.write(b''.join(statement + b';\n' for statement in statements), len(statements))
        self.waiting += loaded

    def write(self, text, statements=0):
        if not self.file or self.octets + len(text) > MOST_BYTES or self.statements + statements > MOST_STATEMENTS:
            self.begin()
        self.file.write(text)
        self.octets += len(text)
        self.statements += statements

    def begin(self):
        if self.file:
            self.file.close()
        self.names.append(f'dump.{len(self.names) + 1}.sql' if self.names else 'dump.sql')
        self.file, self.octets, self.statements = open(self.unfinished(self.names[-1]), 'wb'), 0, 0
        self.waiting = 0  # the end of a script moves out all

    def unfinished(self, name):
        return os.path.join(self.place, f'{name}.unfinished')

    def finish(self):
        if self.file:
            self.file.close()
        for name in self.names:
            os.rename(self.unfinished(name), os.path.join(self.place, name))


class LoadFiles:
    """TABLE.1.tbl, TABLE.2.tbl .., each within the limits of a load file."""

    def __init__(self, place, table):
        self.place, self.table, self.names, self.sizes, self.file, self.rows = place, table, [], [], None, 0

    def add(self, line):
        if not self.file or self.octets + len(line) > MOST_BYTES or self.count == MOST_ROWS:
            self.close()
            self.names.append(f'{self.table}.{len(self.names) + 1}.tbl')
            self.file, self.octets, self.count = open(os.path.join(self.place, self.names[-1]), 'xb'), 0, 0
        self.file.write(line)
        self.octets += len(line)
        self.count += 1
        self.rows += 1

    def close(self):
        if self.file:
            self.file.close()
            self.sizes.append(self.octets)
        self.file = None

    def remove(self):
        self.close()
        for name in self.names:
            os.remove(os.path.join(self.place, name))

    def go_to(self, script):
        self.close()
        for name, size in zip(self.names, self.sizes):
            script.say(f"COPY {self.table} FROM '{name}'".encode(), loaded=size)


class Inserts:
    """The rows that no load file can have, in INSERTs, each committed by itself. They wait in a file until it is known that they are wanted."""

    def __init__(self, place, table):
        self.path, self.table, self.file = os.path.join(place, 'inserts.unfinished'), table, None
        self.tuples, self.octets, self.sizes, self.rows = [], 0, [], 0

    def add(self, row):
        text = b'(' + b', '.join(map(schema.literal, row)) + b')'
        if self.octets + len(text) > INSERT_BYTES:
            self.flush()
        self.tuples.append(text)
        self.octets += len(text)
        self.rows += 1

    def flush(self):
        if self.tuples:
            statement = f'INSERT INTO {self.table} VALUES\n'.encode() + b',\n'.join(self.tuples)
            self.file = self.file or open(self.path, 'wb+')
            self.file.write(statement)
            self.sizes.append(len(statement))
        self.tuples, self.octets = [], 0

    def remove(self):
        if self.file:
            self.file.close()
            os.remove(self.path)
        self.file = None

    def go_to(self, script):
        self.flush()
        if self.file:
            self.file.seek(0)
            for size in self.sizes:
                # what a script leaves pending is dropped at its end
                script.say(self.file.read(size), b'COMMIT', loaded=size)
        self.remove()


def field(value):
    """A value as the field of a load file."""
    if value is None:
        return b''
    if isinstance(value, bytes):
        return b'"' + value.replace(b'"', b'""') + b'"' if QUOTED.search(value) else value
    if isinstance(value, bool):
        return b't' if value else b'f'
    if isinstance(value, date):
        return value.isoformat().encode()
    return b'%d' % value


def fields(values):
    """The fields of a column; of equal values one is made."""
    made = {value: field(value) for value in set(values)}
    return [made[value] for value in values]


def write_rows(folder, table, projection, epoch, load_files, inserts, progress):
    """The rows of a projection that has all columns of its table, as far as they are visible at an epoch."""
    places = [place for _, place in sorted((it.place, place) for place, it in enumerate(projection.columns))]
    for stored in folder.containers(table, projection):
        deleted = stored.deleted()
        for first, values, epochs in stored.blocks(places):
            lines = list(zip(*map(fields, values)))
            has_blanks = any(b'' in column for column in values)
            for i in seen_in(first, epochs, deleted, epoch):
                if has_blanks and any(column[i] == b'' for column in values):
                    inserts.add([column[i] for column in values])
                else:
                    load_files.add((b'|'.join(lines[i]) or b'""') + b'\n')
            progress.on(len(epochs))


def dump_table(look, table, epoch, place, script, progress):
    """Its load files and statements, from the first projection that can be read; how many rows, or None."""
    for projection in table.supers():
        load_files, inserts = LoadFiles(place, table.name), Inserts(place, table.name)
        try:
            write_rows(look.folder, table, projection, epoch, load_files, inserts, progress)
        except Damaged as damage:
            look.damage(damage)
            load_files.remove()
            inserts.remove()
            continue
        load_files.go_to(script)
        inserts.go_to(script)
        return load_files.rows + inserts.rows
    return None


def dump(look, place, progress):
    """Writes the script and the load files of a folder that was looked at; the rows of each table, and the names of the scripts."""
    script, told = Script(place), []
    catalogue = look.catalogue or Catalogue(0, 0, 0, [])
    epoch = catalogue.last_good_epoch()
    script.comment(f'What a folder held at epoch {epoch}. Run it in the folder that it lies in, where its load files are.')
    for statement, _ in schema.creating(catalogue.tables):
        script.say(statement.encode())
    for table in catalogue.tables:
        told.append((table, dump_table(look, table, epoch, place, script, progress)))
    script.finish()
    return told, script.names
