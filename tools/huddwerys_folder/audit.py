"""The verdict on a folder, as `vert DIR --audit` prints it: judged here by docs/FORMATS.md and docs/SQL.md alone."""
from collections import Counter

from .folder import Damaged, StoredColumn
from .spelling import rank


class SpelledColumn(StoredColumn):
    """A column of a container of which each block is its spelling, whatever the type of its values."""

    def __init__(self, stored):
        self.__dict__.update(stored.__dict__)

    def blocks(self):
        self.index()  # it is judged before the body
        return super().blocks()

    def flaw_of(self, values, entry, rows):
        if len(values) != rows:
            return f'it has {len(values)} values for {rows} rows'
        if any(not rank(entry.least) <= rank(value) <= rank(entry.greatest) for value in values):
            return 'a value lies outside of those that the position index tells'
        return None


def is_epoch(container, value):
    return type(value) is int and container.least_epoch <= value <= container.greatest_epoch


def first_file(folder, catalogue):
    """The number of the first listed file that is absent or isn't its spelling, or None."""
    for table, projection in catalogue.projections():
        for stored in folder.containers(table, projection):
            try:
                for column in stored.with_files:
                    for values in SpelledColumn(column).blocks():
                        if column is stored.epochs and not all(is_epoch(stored.container, value) for value in values):
                            return column.body_file
                stored.deleted()
            except Damaged as damage:
                return damage.number
    return None


def judged(stored, epoch, mark):
    """The rows of a container that are judged, each with its position: values, the epoch that inserted it, the one that deleted it or None."""
    stored.columns = [SpelledColumn(it) if isinstance(it, StoredColumn) else it for it in stored.columns]
    stored.epochs = SpelledColumn(stored.epochs)
    deleted = stored.deleted()
    for first, values, epochs in stored.blocks(range(len(stored.columns))):
        for i, inserted in enumerate(epochs):
            end = deleted.get(first + i)
            end = None if end is None or end > epoch else end
            if inserted <= epoch and (end is None or end > mark):
                yield first + i, [column[i] for column in values], inserted, end


def first_row(folder, catalogue, epoch):
    """The line of the first row that doesn't fit its columns or wasn't deleted later than it was inserted, or None."""
    for table, projection in catalogue.projections():
        columns = [table.columns[it.place] for it in projection.columns]
        for stored in folder.containers(table, projection):
            for position, row, inserted, end in judged(stored, epoch, catalogue.history_mark):
                is_good = all(column.flaw_of([value]) is None for column, value in zip(columns, row))
                if not is_good or end is not None and end <= inserted:
                    return f'{table.name} {projection.name} {stored.container.base} {position}'
    return None


def bag_of(folder, table, projection, epoch, mark, wanted):
    """How often each row stands in a projection, in some columns of its table."""
    here = {it.place: place for place, it in enumerate(projection.columns)}
    bag, rows = Counter(), {}
    for stored in folder.containers(table, projection):
        for _, row, inserted, end in judged(stored, epoch, mark):
            cells = [row[here[place]] for place in wanted]
            key = (tuple(rank(cell) for cell in cells), inserted, -1 if end is None else end)
            bag[key] += 1
            rows[key] = (cells, inserted, end)
    return bag, rows


def text_of(value):
    if value is None:
        return b''
    if isinstance(value, bool):
        return b't' if value else b'f'
    return value if isinstance(value, bytes) else str(value).encode()


def line_of(cells):
    fields = [text_of(cell) for cell in cells]
    quoted = [b'"' + it.replace(b'"', b'""') + b'"' if any(mark in it for mark in (b'|', b'"', b'\r', b'\n')) else it for it in fields]
    return b'""' if quoted == [b''] else b'|'.join(quoted)


def first_pair(folder, catalogue, epoch):
    """The names and counts of the first two projections that differ, and the least row in which they do; or None."""
    for table in catalogue.tables:
        supers = [it for it in table.projections if it.is_up_to_date and it.has_all_columns(table)]
        for other in table.projections:
            if not supers or other is supers[0] or not other.is_up_to_date:
                continue
            wanted = [it.place for it in other.columns]
            own, rows = bag_of(folder, table, supers[0], epoch, catalogue.history_mark, wanted)
            its, its_rows = bag_of(folder, table, other, epoch, catalogue.history_mark, wanted)
            differing = [key for key in own | its if own[key] != its[key]]
            if differing:
                key = min(differing)
                cells, inserted, end = (rows | its_rows)[key]
                return f'{table.name} {supers[0].name} {other.name} {own[key]} {its[key]}', line_of([*cells, inserted, end])
    return None


def verdict(folder):
    """What is printed of a folder."""
    try:
        version = folder.version()
        if version is None:
            return b'AUDIT YES 0 0\n'
        catalogue = folder.catalogue(version)
    except Damaged as damage:
        return b'AUDIT NO FILE %d\n' % damage.number
    if list(catalogue.flaws(version)):
        return b'AUDIT NO FILE %d\n' % (4 * version + 1)
    file, epoch = first_file(folder, catalogue), catalogue.last_good_epoch()
    if file is not None:
        return b'AUDIT NO FILE %d\n' % file
    row = first_row(folder, catalogue, epoch)
    if row is not None:
        return f'AUDIT NO ROW {row}\n'.encode()
    pair = first_pair(folder, catalogue, epoch)
    if pair is not None:
        return f'AUDIT NO PAIR {pair[0]}\n'.encode() + pair[1] + b'\n'
    return f'AUDIT YES {epoch} {catalogue.history_mark}\n'.encode()
