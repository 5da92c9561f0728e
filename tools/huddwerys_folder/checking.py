"""Every value of a folder read, and the projections of a table held against each other."""
import hashlib

from .folder import Damaged


class Bag:
    """A bag of rows, as far as a sum of their hashes tells it."""

    def __init__(self):
        self.count = self.sum = 0

    def add(self, row):
        self.count += 1
        self.sum += int.from_bytes(hashlib.blake2b(repr(row).encode(), digest_size=16).digest(), 'big')

    def is_same(self, other):
        return self.count == other.count and self.sum == other.sum


def column_damages(stored, progress):
    """A Damaged for each column of a container, and for its delete vector, that isn't what it has to be."""
    for column in stored.with_files:
        try:
            for values in column.blocks():
                progress.on(len(values))
        except Damaged as damage:
            yield damage
    try:
        stored.deleted()
    except Damaged as damage:
        yield damage


def bags_of(folder, table, projection, epoch, mark, wanted, progress):
    """The bags of a projection's rows with their histories up to an epoch, from the history mark on: one for each list of table places."""
    here = {it.place: place for place, it in enumerate(projection.columns)}
    places = [[here[place] for place in one] for one in wanted]
    bags = [Bag() for _ in wanted]
    for stored in folder.containers(table, projection):
        deleted = stored.deleted()
        for first, values, epochs in stored.blocks(range(len(projection.columns))):
            progress.on(len(epochs) * (len(values) + 1))
            for i, inserted in enumerate(epochs):
                end = deleted.get(first + i)
                end = None if end is None or end > epoch else end
                if inserted <= epoch and (end is None or end > mark):
                    for bag, one in zip(bags, places):
                        bag.add((inserted, end, [values[place][i] for place in one]))
    return bags


def disagreements(folder, catalogue, table, progress):
    """The up-to-date projections of a table that don't hold the rows of its first one with all columns."""
    supers = table.supers()
    others = [it for it in table.projections if it.is_up_to_date and supers and it is not supers[0]]
    if not others:
        return
    epoch, mark = catalogue.last_good_epoch(), catalogue.history_mark
    wanted = [sorted(it.place for it in other.columns) for other in others]
    bags = bags_of(folder, table, supers[0], epoch, mark, wanted, progress)
    for other, places, bag in zip(others, wanted, bags):
        if not bags_of(folder, table, other, epoch, mark, [places], progress)[0].is_same(bag):
            yield f'projections {supers[0].name} and {other.name} of {table.name} hold different rows'


def check(folder, catalogue, progress):
    """What is damaged, file by file, and of tables without damage which projections differ."""
    damages, differences = [], []
    for table in catalogue.tables:
        before = len(damages)
        for projection in table.projections:
            for stored in folder.containers(table, projection):
                damages += column_damages(stored, progress)
        if len(damages) == before:
            differences += disagreements(folder, catalogue, table, progress)
    return damages, differences
