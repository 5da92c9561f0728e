"""The files of a folder: which root is in force, what its catalogue lists, and the rows of a container, block by block."""
import os
import re
from collections import Counter
from contextlib import contextmanager

from .blocks import ROWS, DeleteVector, PositionIndex, block_values, encoding_of
from .catalogue import EPOCHS, Catalogue
from .spelling import Malformed, byte_at, rank


class Unreadable(Exception):
    """The folder or a file of it can't be read, and why."""


class Damaged(Exception):
    """A file isn't what it has to be: its number, what it is, and why."""

    def __init__(self, number, what, reason):
        super().__init__(f'{number}, {what}: {reason}')
        self.number, self.what, self.reason = number, what, reason


def number_of(name):
    """The number that names a file of the program's; None for any other entry."""
    if not re.fullmatch('0|[1-9][0-9]{0,19}', name) or int(name) >= 2**64:
        return None
    return int(name)


class Folder:
    def __init__(self, place):
        self.place, self.sizes, self.others = place, {}, []
        try:
            with os.scandir(place) as entries:
                for entry in entries:
                    self.note(entry)
        except OSError as why:
            raise Unreadable(f'{ascii(place)} can not be read: {why.strerror}') from None

    def note(self, entry):
        number = number_of(entry.name)
        try:
            if number is not None and entry.is_file():
                self.sizes[number] = entry.stat().st_size
            else:
                self.others.append(entry.name)
        except FileNotFoundError:
            pass  # it was removed since the folder was listed

    @contextmanager
    def opened(self, number, what):
        try:
            with open(os.path.join(self.place, str(number)), 'rb') as file:
                yield file
        except (FileNotFoundError, IsADirectoryError):
            raise Damaged(number, what, 'it is missing') from None
        except OSError as why:
            raise Unreadable(f'file {number}, {what}, can not be read: {why.strerror}') from None

    def content(self, number, what):
        with self.opened(number, what) as file:
            return file.read()

    def open_gates(self):
        """The versions of the gates that are exactly the byte 56, the greatest first."""
        gates = sorted((number for number, size in self.sizes.items() if number % 4 == 2 and size == 1), reverse=True)
        return [gate // 4 for gate in gates if self.content(gate, 'a gate') == b'V']

    def version(self):
        """The version in force, that of the greatest open gate; None where nothing was ever stored."""
        gates = self.open_gates()
        if gates:
            return gates[0]
        data = [number for number in self.sizes if number % 4 == 0]
        if data:
            raise Damaged(min(data), 'a data file', 'it stands in a folder without an open gate')
        return None

    def catalogue(self, version):
        body = 4 * version + 1
        try:
            return Catalogue.read(self.content(body, 'the catalogue'))
        except Malformed as why:
            raise Damaged(body, 'the catalogue', str(why)) from None

    def containers(self, table, projection):
        return [StoredContainer(self, table, projection, container) for container in projection.containers]

    def listed(self, version, catalogue):
        """What each file that the catalogue lists is, by its number."""
        listed = {4 * version + 1: 'the catalogue', 4 * version + 2: 'its gate'}
        for table, projection in catalogue.projections():
            for stored in self.containers(table, projection):
                listed.update(stored.files())
        return listed


def unlisted_as(number):
    """What a file is that the catalogue in force doesn't list."""
    kinds = ('data that no table has', 'a catalogue, of version {}', 'a gate, of version {}', "none of the program's")
    return kinds[number % 4].format(number // 4)


class StoredColumn:
    """A column of a container: a body of blocks, and their position index."""

    def __init__(self, folder, stored, place, column, encoding):
        self.folder, self.container, self.column, self.encoding = folder, stored.container, column, encoding
        self.body_file, self.index_file = self.container.body_file(place), self.container.index_file(place)
        named = 'the epochs' if column is EPOCHS else f'column {column.name}'
        self.body_is = f'the body of {named} of {stored.projection.name}, container {self.container.base}'
        self.index_is = f'the position index of {named} of {stored.projection.name}, container {self.container.base}'

    def index(self):
        try:
            return PositionIndex(self.folder.content(self.index_file, self.index_is), self.container.rows)
        except Malformed as why:
            raise Damaged(self.index_file, self.index_is, str(why)) from None

    def pieces(self, body):
        """Of each block in the opened body its index entry, how many bytes and how many rows it has."""
        size = os.fstat(body.fileno()).st_size
        for entry, end, rows in self.index().pieces(size):
            if not entry.place < end <= size:
                raise Damaged(self.body_file, self.body_is, f'it has {size} bytes, and a block at {entry.place}')
            yield entry, end - entry.place, rows

    def usage(self):
        """How many blocks have each encoding, and how many bytes they take; of a block no more than its tag is read."""
        blocks, octets = Counter(), Counter()
        with self.folder.opened(self.body_file, self.body_is) as body:
            for entry, size, _ in self.pieces(body):
                try:
                    tag, _ = byte_at(os.pread(body.fileno(), 1, entry.place), 0)
                    encoding = encoding_of(tag, self.encoding)
                except Malformed as why:
                    raise self.damaged(entry, why) from None
                blocks[encoding] += 1
                octets[encoding] += size
        return blocks, octets

    def blocks(self):
        """The values of each block."""
        with self.folder.opened(self.body_file, self.body_is) as body:
            for entry, size, rows in self.pieces(body):
                try:
                    values = block_values(body.read(size), self.encoding)
                    flaw = self.flaw_of(values, entry, rows)
                except Malformed as why:
                    flaw = why
                if flaw:
                    raise self.damaged(entry, flaw)
                yield values

    def damaged(self, entry, why):
        return Damaged(self.body_file, self.body_is, f'block {entry.first // ROWS} at byte {entry.place}: {why}')

    def flaw_of(self, values, entry, rows):
        if len(values) != rows:
            return f'it has {len(values)} values for {rows} rows'
        flaw = self.column.flaw_of(values)
        if flaw:
            return flaw
        present = [value for value in values if value is not None]
        least, greatest = min(present, default=None), max(present, default=None)
        if rank(least if len(present) == rows else None) < rank(entry.least) or rank(greatest) > rank(entry.greatest):
            return 'a value lies outside of those that the position index tells'
        if self.column is EPOCHS and not self.container.least_epoch <= least <= greatest <= self.container.greatest_epoch:
            return "an epoch lies outside of the container's"
        return None


class DefaultColumn:
    """A column that a container doesn't store: it has its default in each row, and no files."""

    body_file = index_file = None

    def __init__(self, rows, default):
        self.rows, self.default = rows, default

    def usage(self):
        return Counter({'default': 0}), Counter({'default': 0})

    def blocks(self):
        for first in range(0, self.rows, ROWS):
            yield [self.default] * min(ROWS, self.rows - first)


class StoredContainer:
    """A container of a projection: its columns, the epochs of its rows, and its delete vector."""

    def __init__(self, folder, table, projection, container):
        self.folder, self.projection, self.container = folder, projection, container
        stored = [
            StoredColumn(folder, self, place, table.columns[it.place], it.encoding)
            for place, it in enumerate(projection.columns[: container.stored])
        ]
        self.columns = stored + [DefaultColumn(container.rows, it.default) for it in projection.columns[container.stored :]]
        self.epochs = StoredColumn(folder, self, container.stored, EPOCHS, 'AUTO')
        self.with_files = stored + [self.epochs]
        self.vector_file = 4 * container.delete_vector
        self.vector_is = f'the delete vector of {projection.name}, container {container.base}'

    def files(self):
        """What each of its files is, by its number."""
        files = {}
        for column in self.with_files:
            files[column.body_file], files[column.index_file] = column.body_is, column.index_is
        if self.container.delete_vector:
            files[self.vector_file] = self.vector_is
        return files

    def deleted(self):
        """The epochs at which rows were deleted, by their positions."""
        if not self.container.delete_vector:
            return {}
        try:
            return DeleteVector(self.folder.content(self.vector_file, self.vector_is), self.container).epochs
        except Malformed as why:
            raise Damaged(self.vector_file, self.vector_is, str(why)) from None

    def blocks(self, places):
        """Of each block the position of its first row, the values of some columns, and the epochs that inserted its rows."""
        first = 0
        for *values, epochs in zip(*[self.columns[place].blocks() for place in places], self.epochs.blocks()):
            yield first, values, epochs
            first += ROWS

    def visible_rows(self, epoch):
        """How many rows are visible at an epoch. The epochs are read only where some row may be later."""
        deleted = self.deleted()
        if self.container.greatest_epoch <= epoch:
            return self.container.rows - sum(1 for at in deleted.values() if at <= epoch)
        return sum(len(seen_in(first, epochs, deleted, epoch)) for first, _, epochs in self.blocks([]))


def seen_in(first, epochs, deleted, epoch):
    """Which rows of a block are visible at an epoch: inserted at or before it, and not deleted at or before it."""
    if not deleted and max(epochs) <= epoch:
        return range(len(epochs))
    return [i for i, at in enumerate(epochs) if at <= epoch and deleted.get(first + i, epoch + 1) > epoch]
