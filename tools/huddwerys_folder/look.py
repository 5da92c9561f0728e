"""What bin/vert-show prints of a folder."""
import sys
import time
from collections import Counter

from . import schema
from .checking import check
from .folder import Damaged, unlisted_as


class Progress:
    """How far a long work is, on standard error, once a second from the first second on."""

    def __init__(self, what):
        self.what, self.count, self.start, self.last = what, 0, None, None

    def on(self, count):
        now = time.monotonic()
        if self.start is None:
            self.start = self.last = now
        self.count += count
        if now - self.last > 1:
            self.last = now
            print(f'vert-show: {self.count:,} {self.what} after {now - self.start:.0f} s', file=sys.stderr, flush=True)


class Grid:
    """Rows of cells under their heads: texts to the left, numbers to the right."""

    def __init__(self, *heads):
        self.rows, self.is_number = [heads], [False] * len(heads)

    def add(self, *cells):
        for place, cell in enumerate(cells):
            self.is_number[place] |= isinstance(cell, (int, float))
        self.rows.append(cells)

    def print(self):
        rows = [[text_of(cell) for cell in row] for row in self.rows]
        widths = [max(map(len, column)) for column in zip(*rows)]
        for row in rows:
            cells = [cell.rjust(width) if number else cell.ljust(width) for cell, width, number in zip(row, widths, self.is_number)]
            print(('  ' + '  '.join(cells)).rstrip())
        print()


def text_of(cell):
    if cell is None:
        return '-'
    return f'{cell:,.2f}' if isinstance(cell, float) else f'{cell:,}' if isinstance(cell, int) else cell


def counted(count, one, many=None):
    return f'{count:,} {one}' if count == 1 else f'{count:,} {many or one + "s"}'


def a_row(octets, rows):
    return f', {octets / rows:,.2f} bytes a row' if rows else ''


def over(octets, rows):
    """Bytes a row, where there are rows."""
    return octets / rows if rows else None


def printable(text):
    """A text in one line, whatever its signs."""
    return text if text.isprintable() else ascii(text)


class Look:
    """A folder as it is told, with what is found damaged on the way."""

    def __init__(self, folder):
        self.folder, self.damages, self.breaches = folder, {}, []
        self.version = self.catalogue = None
        self.listed, self.known_rows, self.progress = {}, {}, Progress('blocks looked at')
        try:
            self.version = folder.version()
            if self.version is not None:
                self.catalogue = folder.catalogue(self.version)
        except Damaged as damage:
            self.damage(damage)
        if self.catalogue:
            self.breaches = [f'the catalogue: {flaw}' for flaw in self.catalogue.flaws(self.version)]
            self.listed = folder.listed(self.version, self.catalogue)
            for number, what in self.listed.items():
                if number not in folder.sizes:
                    self.damage(Damaged(number, what, 'it is missing'))

    def damage(self, damage):
        self.damages.setdefault(damage.number, damage)

    def tried(self, work, *words):
        """What some work gives, or None where it meets a damaged file."""
        try:
            return work(*words)
        except Damaged as damage:
            self.damage(damage)
            return None

    def is_fresh(self):
        """Nothing was ever stored."""
        return self.version is None and not self.damages

    def is_well(self):
        return not self.damages and not self.breaches

    def size(self, numbers):
        return sum(self.folder.sizes.get(number, 0) for number in numbers)

    def rows_of(self, table):
        """The rows of a table at the last good epoch, from the first projection that can be read; None where none can."""
        if table.name not in self.known_rows:
            epoch = self.catalogue.last_good_epoch()
            self.known_rows[table.name] = None
            for projection in table.supers():
                counts = [self.tried(stored.visible_rows, epoch) for stored in self.folder.containers(table, projection)]
                if None not in counts:
                    self.known_rows[table.name] = sum(counts)
                    break
        return self.known_rows[table.name]

    def check(self):
        """Reads every value."""
        damages, differences = check(self.folder, self.catalogue, Progress('values read'))
        for damage in damages:
            self.damage(damage)
        self.breaches += differences

    # ---- the page

    def print(self, is_checked):
        print(f'Folder {printable(self.folder.place)}')
        print()
        self.print_facts()
        if self.catalogue:
            if is_checked:
                self.check()
            if self.catalogue.tables:
                self.print_schema()
            for table in self.catalogue.tables:
                self.print_table(table)
        self.print_unlisted()
        self.print_verdict(is_checked)

    def print_facts(self):
        facts = [('root', 'no gate is open')]
        if self.version is not None:
            facts = [('root', f'version {self.version}: catalogue {4 * self.version + 1}, gate {4 * self.version + 2}')]
        rows = None
        if self.catalogue:
            newest, good = self.catalogue.last_epoch, self.catalogue.last_good_epoch()
            facts.append(('newest epoch', f'{newest}'))
            facts.append(('last good epoch', f'{good}' if good == newest else f'{good}, to which the next opening goes back'))
            facts.append(('ancient history mark', f'{self.catalogue.history_mark}'))
            rows = [self.rows_of(table) for table in self.catalogue.tables]
            rows = None if None in rows else sum(rows)
            facts.append(('tables', f'{len(self.catalogue.tables):,}'))
            facts.append(('rows', 'not known' if rows is None else f'{rows:,} at the last good epoch'))
        octets = self.size(self.folder.sizes)
        facts.append(('files', f"{len(self.folder.sizes):,} of {counted(octets, 'byte')}{a_row(octets, rows)}"))
        for name, value in facts:
            print(f'  {name:<22}{value}')
        print()

    def print_schema(self):
        print('Schema')
        print()
        for statement, projection in schema.creating(self.catalogue.tables):
            if projection and not projection.is_up_to_date:
                print('-- not up to date: it was made over rows, holds none of them and serves no query')
            print(f'{statement};')
        print()

    def print_table(self, table):
        rows = self.rows_of(table)
        print(f'Table {table.name}' + ('' if rows is None else f": {counted(rows, 'row')} at the last good epoch"))
        print()
        for projection in table.projections:
            self.print_projection(table, projection)

    def print_projection(self, table, projection):
        stored = self.folder.containers(table, projection)
        rows, octets = projection.stored_rows(), self.size(number for it in stored for number in it.files())
        names = schema.names_of(table, projection)
        state = f'last good epoch {projection.last_good_epoch}' if projection.is_up_to_date else 'serves no query'
        print(f"Projection {projection.name} of {table.name}: {'' if projection.is_up_to_date else 'not '}up to date, {state}")
        print(f"  sorted by {', '.join(names[place] for place in projection.sort)}")
        print(f"  {counted(rows, 'row')} in {counted(len(stored), 'container')}, {counted(octets, 'byte')}{a_row(octets, rows)}")
        print()
        if stored:
            self.print_containers(projection, stored)
            self.print_columns(names, projection, stored, rows)

    def print_containers(self, projection, stored):
        lacks = any(it.container.stored < len(projection.columns) for it in stored)
        grid = Grid('container', 'level', 'epochs', 'rows', 'deleted', *['columns'] * lacks, 'bytes')
        for it in stored:
            least, greatest = it.container.least_epoch, it.container.greatest_epoch
            epochs = f'{least}' if least == greatest else f'{least} to {greatest}'
            deleted = self.tried(it.deleted)
            deleted = None if deleted is None else len(deleted)
            columns = [it.container.stored] * lacks
            grid.add(f'{it.container.base}', it.container.level, epochs, it.container.rows, deleted, *columns, self.size(it.files()))
        grid.print()

    def print_columns(self, names, projection, stored, rows):
        grid = Grid('column', 'declared', 'encoding', 'blocks', 'bytes', 'index bytes', 'bytes a row')
        declared = [schema.declared(it) for it in projection.columns] + ['AUTO']
        for place, (name, encoding) in enumerate(zip(names + ['(epochs)'], declared)):
            columns = [[*it.columns, it.epochs][place] for it in stored]
            index, blocks, octets = self.size(it.index_file for it in columns), Counter(), Counter()
            for column in columns:
                used = self.tried(column.usage) or ({'not read': 0}, {'not read': self.size([column.body_file])})
                self.progress.on(sum(used[0].values()))
                blocks.update(used[0])
                octets.update(used[1])
            for used in sorted(blocks, key=lambda it: -octets[it]):
                grid.add(name, encoding, used, blocks[used] or None, octets[used], index, over(octets[used] + (index or 0), rows))
                name, encoding, index = '', '', ''
        vectors = [it.vector_file for it in stored if it.container.delete_vector]
        if vectors:
            grid.add('(deleted)', '', 'delete vector', len(vectors), self.size(vectors), '', over(self.size(vectors), rows))
        grid.print()

    def print_unlisted(self):
        unlisted = sorted(set(self.folder.sizes) - set(self.listed))
        if unlisted and (self.catalogue or self.is_fresh()):
            print('Unlisted files' + (': the next opening removes those of the program' if self.catalogue else ''))
            print()
            grid = Grid('file', 'bytes', 'what')
            for number in unlisted:
                grid.add(f'{number}', self.folder.sizes[number], unlisted_as(number))
            grid.print()
        others = sorted(self.folder.others)
        if others:
            shown = ', '.join(map(printable, others[:5])) + (', ..' if len(others) > 5 else '')
            print(f"Ignored, since no file of the program's is called so: {counted(len(others), 'entry', 'entries')} ({shown})")
            print()

    def print_verdict(self, is_checked):
        if self.damages:
            print('Damaged files')
            print()
            grid = Grid('file', 'what', 'why')
            for number in sorted(self.damages):
                grid.add(f'{number}', self.damages[number].what, self.damages[number].reason)
            grid.print()
        if self.breaches:
            print('\n'.join(self.breaches))
            print()
        if self.is_well() and is_checked:
            print('No damage: every value was read, and the projections of each table hold the same rows.')
        elif self.is_well():
            print('No damage seen. Of a block only the tag was read; --check reads every value.')

    def in_a_line(self):
        """What is damaged, where anything is."""
        told = [f'file {self.damages[number]}' for number in sorted(self.damages)] + self.breaches
        return told[0] + (f', and {len(told) - 1:,} more' if len(told) > 1 else '')
