"""The catalogue of a folder: its tables, projections and containers as they are spelled, and the rules that they keep.

What isn't spelled as it has to be, or speaks of columns that aren't there, raises Malformed. Rules of epochs, numbers and order are told by
`flaws`, since the rest of a catalogue that breaks one can be looked at.
"""
import re
from dataclasses import dataclass
from datetime import date

from .blocks import ENCODINGS
from .spelling import Front, Malformed, value_at

MAGIC = b'VCAT'
VERSIONS = (1, 2)  # of the format; the program writes the last one
MOST_TABLES, MOST_COLUMNS, MOST_PROJECTIONS, MOST_NAME, MOST_LENGTH = 1024, 64, 16, 128, 65_000


def name_in(front):
    """A name: small letters, digits and _, no digit first."""
    name = front.text()
    if not re.fullmatch(rb'[a-z_][a-z0-9_]*', name) or len(name) > MOST_NAME:
        raise Malformed(f'{ascii(name[:40])[1:]} is no name')
    return name.decode()


def listed(count, most, what):
    if not 1 <= count <= most:
        raise Malformed(f'{what} has to be from 1 to {most:,}, and is {count:,}')


@dataclass
class Column:
    name: str
    kind: str  # INTEGER, VARCHAR, BOOLEAN or DATE
    length: int  # of a VARCHAR
    is_not_null: bool

    @classmethod
    def read(cls, front):
        name, kind, length = name_in(front), front.byte(), 0
        if not 1 <= kind <= 4:
            raise Malformed(f'{kind:02x} is no type of a column')
        if kind == 2:
            length = front.vint()
            listed(length, MOST_LENGTH, f'the length of column {name}')
        return cls(name, ('INTEGER', 'VARCHAR', 'BOOLEAN', 'DATE')[kind - 1], length, front.flag())

    def flaw_of(self, values):
        """Why some values aren't all of this column, or None."""
        kinds = set(map(type, values))
        if type(None) in kinds:
            if self.is_not_null:
                return 'a NULL stands in a NOT NULL column'
            kinds.remove(type(None))
        wanted = {'INTEGER': int, 'VARCHAR': bytes, 'BOOLEAN': bool, 'DATE': date}[self.kind]
        if kinds - {wanted}:
            return f'a value is none of type {self.kind}'
        if wanted is bytes and any(len(value) > self.length for value in values if value is not None):
            return f'a text has more than {self.length:,} octets'
        return None


# behind the columns of a container stand the epochs that inserted its rows
EPOCHS = Column('(epochs)', 'INTEGER', 0, True)


@dataclass
class ProjectionColumn:
    place: int  # in the table
    encoding: str
    has_default: bool
    default: object  # the value of rows that were stored before the column was there

    @classmethod
    def read(cls, front, version):
        place, tag = front.vint(), front.byte()
        if tag >= len(ENCODINGS):
            raise Malformed(f'{tag:02x} is no encoding')
        has_default = version > 1 and front.flag()
        return cls(place, ENCODINGS[tag], has_default, front.next(value_at) if has_default else None)


@dataclass
class Container:
    base: int
    rows: int
    least_epoch: int
    greatest_epoch: int
    level: int
    delete_vector: int  # its number, or 0
    greatest_mark: int
    stored: int  # how many columns of the projection, from the first on

    @classmethod
    def read(cls, front, version, columns):
        container = cls(*[front.vint() for _ in range(7)], columns if version == 1 else front.vint())
        if container.level >= 2**32:
            raise Malformed('a level is 2^32 or more')
        return container

    def body_file(self, place):
        return 4 * (self.base + 2 * place)

    def index_file(self, place):
        return 4 * (self.base + 2 * place + 1)

    def spans(self):
        """The numbers that it has: two for each column that it stores and for the epochs, and that of its delete vector."""
        yield self.base, self.base + 2 * (self.stored + 1)
        if self.delete_vector:
            yield self.delete_vector, self.delete_vector + 1

    def flaws(self, good, following):
        if self.rows < 1:
            yield 'it has no rows'
        if not 1 <= self.least_epoch <= self.greatest_epoch <= good:
            yield f'its epochs go from {self.least_epoch} to {self.greatest_epoch}, and its projection has reached {good}'
        if bool(self.delete_vector) != bool(self.greatest_mark) or self.greatest_mark > good:
            yield f'its delete vector is {self.delete_vector}, of greatest epoch {self.greatest_mark}'
        if self.base < 1 or any(end > following for _, end in self.spans()):
            yield f'its numbers are none from 1 to the next free one, {following}'


@dataclass
class Projection:
    name: str
    columns: list
    sort: list  # places among its columns
    is_up_to_date: bool
    last_good_epoch: int
    made: int  # how many containers of level 0
    containers: list

    @classmethod
    def read(cls, front, version):
        name, columns = name_in(front), front.many(lambda it: ProjectionColumn.read(it, version))
        return cls(
            name, columns, front.many(Front.vint), front.flag(), front.vint(), front.vint(),
            front.many(lambda it: Container.read(it, version, len(columns))),
        )

    def fit(self, table):
        """Its columns are columns of the table, each once, in encodings that take them, with defaults that fit; it is sorted by some of its
        own, each once. A container stores at least the columns by which it is sorted, and those that it doesn't store have a default."""
        places = [column.place for column in self.columns]
        if not places or len(set(places)) < len(places) or max(places) >= len(table.columns):
            raise Malformed(f'the columns of {self.name} are no columns of its table')
        if not self.sort or len(set(self.sort)) < len(self.sort) or max(self.sort) >= len(places):
            raise Malformed(f'the sort columns of {self.name} are none of its columns')
        for column in self.columns:
            if column.encoding == 'DELTAVAL' and table.columns[column.place].kind not in ('INTEGER', 'DATE'):
                raise Malformed(f'{self.name} has a DELTAVAL column that is neither INTEGER nor DATE')
            if column.has_default and table.columns[column.place].flaw_of([column.default]):
                raise Malformed(f'a default of {self.name} is no value of its column')
        for container in self.containers:
            if not max(self.sort) < container.stored <= len(places):
                raise Malformed(f'container {container.base} of {self.name} stores {container.stored} columns')
            if not all(column.has_default for column in self.columns[container.stored :]):
                raise Malformed(f'container {container.base} of {self.name} lacks a column without a default')

    def has_all_columns(self, table):
        return len(self.columns) == len(table.columns)

    def stored_rows(self):
        return sum(container.rows for container in self.containers)

    def flaws(self, catalogue):
        if self.is_up_to_date and not catalogue.history_mark <= self.last_good_epoch <= catalogue.last_epoch:
            yield f'it has reached epoch {self.last_good_epoch}, which is none from the ancient history mark to the last one'
        if not self.is_up_to_date and (self.last_good_epoch or self.made or self.containers):
            yield "it isn't up to date, and holds something"
        # a container of level n stands for 4 ^ n of level 0
        if sum(4 ** min(container.level, 32) for container in self.containers) > self.made:
            yield f'it has containers of more than {self.made} of level 0'
        if self.made >= catalogue.next_number:
            yield f'{self.made} containers were made of it, and no more than {catalogue.next_number} numbers drawn'
        for container in self.containers:
            for flaw in container.flaws(self.last_good_epoch, catalogue.next_number):
                yield f'container {container.base}: {flaw}'


@dataclass
class Table:
    name: str
    columns: list
    projections: list

    @classmethod
    def read(cls, front, version):
        table = cls(name_in(front), front.many(Column.read), front.many(lambda it: Projection.read(it, version)))
        names = [column.name for column in table.columns]
        listed(len(names), MOST_COLUMNS, f'the number of columns of {table.name}')
        if len(set(names)) < len(names):
            raise Malformed(f'a column of {table.name} stands twice')
        for projection in table.projections:
            projection.fit(table)
        return table

    def supers(self):
        """The up-to-date projections that have all its columns."""
        return [it for it in self.projections if it.is_up_to_date and it.has_all_columns(self)]

    def flaws(self, catalogue):
        if len(self.projections) > MOST_PROJECTIONS:
            yield f'it has more than {MOST_PROJECTIONS} projections'
        names = [projection.name for projection in self.projections]
        if names != sorted(names):
            yield 'its projections do not stand in the order of their names'
        if not self.supers():
            yield 'no up-to-date projection has all its columns'
        for projection in self.projections:
            for flaw in projection.flaws(catalogue):
                yield f'projection {projection.name}: {flaw}'


@dataclass
class Catalogue:
    last_epoch: int
    history_mark: int
    next_number: int
    tables: list

    @classmethod
    def read(cls, data):
        if data[: len(MAGIC)] != MAGIC:
            raise Malformed("it doesn't begin with VCAT")
        front = Front(data, len(MAGIC))
        version = front.byte()
        if version not in VERSIONS:
            raise Malformed(f'its format has version {version}, and this tool reads versions 1 and 2')
        catalogue = cls(front.vint(), front.vint(), front.vint(), front.many(lambda it: Table.read(it, version)))
        front.end()
        return catalogue

    def last_good_epoch(self):
        """The least epoch that an up-to-date projection has reached: an opening cuts all that is later."""
        reached = [it.last_good_epoch for table in self.tables for it in table.projections if it.is_up_to_date]
        return min(reached, default=self.last_epoch)

    def projections(self):
        """All projections, each behind its table."""
        return [(table, projection) for table in self.tables for projection in table.projections]

    def spans(self):
        for _, projection in self.projections():
            for container in projection.containers:
                yield from container.spans()

    def flaws(self, version):
        """The rules that it breaks, as the catalogue of this version."""
        if len(self.tables) > MOST_TABLES:
            yield f'it has more than {MOST_TABLES:,} tables'
        names = [table.name for table in self.tables]
        if names != sorted(names):
            yield 'its tables do not stand in the order of their names'
        names += [projection.name for _, projection in self.projections()]
        if len(set(names)) < len(names):
            yield 'two tables or projections have one name'
        if not self.history_mark <= self.last_epoch < 2**63:
            yield f'its last epoch is {self.last_epoch}, and its ancient history mark {self.history_mark}'
        spans = sorted(self.spans())
        if any(end > first for (_, end), (first, _) in zip(spans, spans[1:])):
            yield 'two containers or delete vectors have one number'
        drawn = self.next_number
        if self.is_past(self.last_good_epoch()):
            drawn += sum(end - first for first, end in spans) + 1
        if drawn >= 2**62:
            yield 'its numbers are spent'
        if version >= self.next_number:
            yield f'its version {version} was not drawn: the next free number is {self.next_number}'
        for table in self.tables:
            for flaw in table.flaws(self):
                yield f'table {table.name}: {flaw}'

    def is_past(self, epoch):
        return self.last_epoch > epoch or any(it.is_up_to_date and it.last_good_epoch > epoch for _, it in self.projections())
