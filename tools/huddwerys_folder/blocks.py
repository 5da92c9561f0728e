"""The files of a column and of a delete vector: blocks in their encodings, the position index of the blocks, deleted positions."""
from collections import namedtuple

from .spelling import GREATEST, LAST_DAY, Front, Malformed, are_same, be4_at, byte_at, day_of, number_at, rank, value_at, vint_at, vints_at

ROWS = 1024
ENCODINGS = ('AUTO', 'RLE', 'DELTAVAL', 'BLOCK_DICT', 'PLAIN')
# the encoding of each tag; DELTAVAL has one for numbers and one for dates
TAGS = ENCODINGS + ('DELTAVAL',)


def count_at(data, at):
    count, at = vint_at(data, at)
    if not 1 <= count <= ROWS:
        raise Malformed(f'a count of {count} stands where it has to be from 1 to {ROWS:,}')
    return count, at


def values_at(data, at, count):
    values = []
    for _ in range(count):
        value, at = value_at(data, at)
        values.append(value)
    return values, at


def rle_at(data, at):
    runs, at = count_at(data, at)
    values = []
    for _ in range(runs):
        value, at = value_at(data, at)
        times, at = count_at(data, at)
        if values and are_same(values[-1], value):
            raise Malformed('two neighbouring runs have one value')
        if len(values) + times > ROWS:
            raise Malformed(f'its runs have more than {ROWS:,} values')
        values += [value] * times
    return values, at


def deltaval_at(data, at):
    count, at = count_at(data, at)
    base, at = number_at(data, at)
    deltas, at = vints_at(data, at, count)
    greatest = max(deltas)
    if greatest == 0 and base != 0:
        raise Malformed('all values are NULL, and the base is not 0')
    if greatest > 0 and min(filter(None, deltas)) != 1:
        raise Malformed('the base is not the least number')
    if base + greatest - 1 > GREATEST:
        raise Malformed('a number is 2^63 or more')
    return [base + delta - 1 if delta else None for delta in deltas], at


def date_deltaval_at(data, at):
    count, at = count_at(data, at)
    base, at = be4_at(data, at)
    deltas, at = vints_at(data, at, count)
    if max(deltas) == 0:
        raise Malformed('all values are NULL')
    if min(filter(None, deltas)) != 1 or base < 1:
        raise Malformed('the base is not the least day')
    if base + max(deltas) - 1 > LAST_DAY:
        raise Malformed('a day is behind 9999-12-31')
    return [day_of(base + delta - 1) if delta else None for delta in deltas], at


def block_dict_at(data, at):
    size, at = count_at(data, at)
    words, at = values_at(data, at, size)
    ranks = [rank(word) for word in words]
    if any(a >= b for a, b in zip(ranks, ranks[1:])):
        raise Malformed('the values of the dictionary do not ascend')
    count, at = count_at(data, at)
    places, at = vints_at(data, at, count)
    if max(places) >= size:
        raise Malformed('a place is none of the dictionary')
    if len(set(places)) < size:
        raise Malformed('a value of the dictionary is not used')
    return [words[place] for place in places], at


def plain_at(data, at):
    count, at = count_at(data, at)
    return values_at(data, at, count)


READERS = (None, rle_at, deltaval_at, block_dict_at, plain_at, date_deltaval_at)


def encoding_of(tag, declared):
    """The encoding that a tag says, in a column with this one: an AUTO column has blocks of each, another one its own alone."""
    if not 1 <= tag < len(TAGS):
        raise Malformed(f'{tag:02x} is no tag of a block')
    if declared not in ('AUTO', TAGS[tag]):
        raise Malformed(f'a block is {TAGS[tag]} in a column that is {declared}')
    return TAGS[tag]


def block_values(data, declared):
    """The values of the block that all of the bytes are."""
    tag, at = byte_at(data, 0)
    encoding_of(tag, declared)
    values, at = READERS[tag](data, at)
    if at != len(data):
        raise Malformed(f'{len(data) - at} bytes are left behind a block')
    return values


Entry = namedtuple('Entry', 'first place least greatest')


class PositionIndex:
    """Where each block of a column begins, and between which values its own lie."""

    def __init__(self, data, rows):
        front = Front(data)
        told = front.vint()
        if told != rows:
            raise Malformed(f'it is of {told:,} rows, and the container has {rows:,}')
        self.rows, self.entries = rows, []
        place = -1
        for first in range(0, rows, ROWS):
            entry = Entry(front.vint(), front.vint(), front.next(value_at), front.next(value_at))
            if entry.first != first:
                raise Malformed(f'a block begins with row {entry.first}, and not with row {first}')
            if entry.place <= place or not first and entry.place:
                raise Malformed('the places of its blocks do not rise from 0')
            if rank(entry.least) > rank(entry.greatest):
                raise Malformed('the least value of a block is above its greatest')
            place = entry.place
            self.entries.append(entry)
        front.end()

    def pieces(self, size):
        """Of each block in a body of so many bytes its entry, where it ends, and how many rows it has."""
        ends = [entry.place for entry in self.entries[1:]] + [size]
        for entry, end in zip(self.entries, ends):
            yield entry, end, min(ROWS, self.rows - entry.first)


class DeleteVector:
    """Which positions of a container are deleted, each with the epoch of the commit that deleted it."""

    def __init__(self, data, container):
        front = Front(data)
        self.epochs = {}
        position = -1
        for gap, epoch in front.many(lambda it: (it.vint(), it.vint())):
            position += 1 + gap
            if epoch == 0:
                raise Malformed('a row is deleted at epoch 0')
            if position >= container.rows:
                raise Malformed(f'row {position} is deleted, and the container has {container.rows:,}')
            self.epochs[position] = epoch
        front.end()
        if not self.epochs:
            raise Malformed('it deletes no row')
        if max(self.epochs.values()) != container.greatest_mark:
            raise Malformed(f'its greatest epoch is {max(self.epochs.values())}, and the catalogue says {container.greatest_mark}')
