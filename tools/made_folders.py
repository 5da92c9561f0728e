#!/usr/bin/env python3
"""Writes tests/version_one and tests/added_column, folders that the program of today doesn't make: one whose catalogue is of version 1 of the
format, with every encoding, deletes and two projections, and one whose older container stores fewer columns than its projection has.

    tools/made_folders.py        in the repository's folder
"""
import os
import shutil
from datetime import date

from block_cases import delta, dictionary, plain, rank, rle, value, vint

ENCODERS = {'RLE': rle, 'DELTAVAL': delta, 'BLOCK_DICT': dictionary, 'PLAIN': plain}
TAGS = ('AUTO', 'RLE', 'DELTAVAL', 'BLOCK_DICT', 'PLAIN')
KINDS = {'INTEGER': b'\1', 'BOOLEAN': b'\3', 'DATE': b'\4'}


def block(values, encoding):
    """A block in its encoding; AUTO takes the shortest, and of equal ones that of the least tag."""
    if encoding != 'AUTO':
        return ENCODERS[encoding](values)
    made = [encode(values) for encode in ENCODERS.values()]
    return min((it for it in made if it is not None), key=lambda it: (len(it), it[0]))


def text(it):
    return vint(len(it)) + it.encode()


def counted(parts):
    return vint(len(parts)) + b''.join(parts)


class Made:
    """A folder under way: its files, and the next number."""

    def __init__(self, version):
        self.version, self.files, self.next = version, {}, 1

    def drawn(self, count):
        self.next += count
        return self.next - count

    def put_column(self, number, values, encoding):
        self.files[4 * number] = block(values, encoding)
        least, greatest = min(values, key=rank), max(values, key=rank)
        self.files[4 * number + 4] = vint(len(values)) + vint(0) + vint(0) + value(least) + value(greatest)

    def container(self, columns, stored, epochs, rows, deleted):
        """Rows of a projection with so many of its columns stored, and where some of them were deleted: position and epoch of each."""
        base = self.drawn(2 * (stored + 1))
        for place in range(stored):
            self.put_column(base + 2 * place, [row[place] for row in rows], columns[place][1])
        self.put_column(base + 2 * stored, epochs, 'AUTO')
        vector = self.drawn(1) if deleted else 0
        if deleted:
            gaps, after = [], 0
            for position, epoch in deleted:
                gaps.append(vint(position - after) + vint(epoch))
                after = position + 1
            self.files[4 * vector] = counted(gaps)
        numbers = [base, len(rows), min(epochs), max(epochs), 0, vector, max((epoch for _, epoch in deleted), default=0)]
        return b''.join(map(vint, numbers + [stored] * (self.version > 1)))

    def projection(self, name, columns, sort, last, containers):
        parts = []
        for place, encoding, *default in columns:
            told = vint(place) + bytes([TAGS.index(encoding)])
            if self.version > 1:
                told += b'\1' + value(default[0]) if default else b'\0'
            parts.append(told)
        return text(name) + counted(parts) + counted(list(map(vint, sort))) + b'\1' + vint(last) + vint(len(containers)) + counted(containers)

    def table(self, name, columns, projections):
        told = []
        for column, kind, is_not_null in columns:
            kind = KINDS[kind] if kind in KINDS else b'\2' + vint(int(kind[8:-1]))
            told.append(text(column) + kind + bytes([is_not_null]))
        return text(name) + counted(told) + counted(projections)

    def write(self, place, last, tables):
        version = self.drawn(1)
        self.files[4 * version + 1] = b'VCAT' + bytes([self.version]) + vint(last) + vint(0) + vint(self.next) + counted(tables)
        self.files[4 * version + 2] = b'V'
        shutil.rmtree(place, ignore_errors=True)
        os.makedirs(place)
        for number, data in self.files.items():
            with open(os.path.join(place, str(number)), 'wb') as file:
                file.write(data)


def version_one():
    made = Made(1)
    first = [
        (1, b'oak', True, date(2024, 2, 29)), (2, None, False, None), (3, b'ash', None, date(1970, 1, 1)), (4, b'oak', True, date(1, 1, 1)),
    ]
    second = [(-7, b'elm', True, date(2000, 1, 1)), (5, b'', False, date(9999, 12, 31))]
    whole = [(0, 'DELTAVAL'), (1, 'BLOCK_DICT'), (2, 'RLE'), (3, 'DELTAVAL')]
    by_s = [(1, 'AUTO'), (0, 'PLAIN')]
    containers = [made.container(whole, 4, [1] * 4, first, [(2, 2)]), made.container(whole, 4, [2] * 2, second, [])]
    words = [sorted(((s, k) for k, s, _, _ in rows), key=lambda row: list(map(rank, row))) for rows in (first, second)]
    others = [made.container(by_s, 2, [1] * 4, words[0], [(1, 2)]), made.container(by_s, 2, [2] * 2, words[1], [])]
    columns = [('k', 'INTEGER', 1), ('s', 'VARCHAR(8)', 0), ('b', 'BOOLEAN', 0), ('d', 'DATE', 0)]
    projections = [made.projection('by_s', by_s, [0], 2, others), made.projection('t_super', whole, [0, 1, 2, 3], 2, containers)]
    made.write('tests/version_one', 2, [made.table('t', columns, projections)])


def added_column():
    made = Made(2)
    whole = [(0, 'AUTO'), (1, 'AUTO', b'new'), (2, 'RLE', date(2024, 2, 29)), (3, 'DELTAVAL', None)]
    older = made.container(whole, 1, [1] * 3, [(1,), (2,), (3,)], [(1, 3)])
    between = made.container(whole, 2, [2, 2], [(4, b'x'), (5, None)], [])
    newer = made.container(whole, 4, [3], [(6, b'new', date(2000, 1, 1), 60)], [])
    alone = [made.container([(0, 'AUTO')], 1, [1, 1, 1, 2, 2, 3], [(k,) for k in range(1, 7)], [(1, 3)])]
    columns = [('a', 'INTEGER', 1), ('c', 'VARCHAR(8)', 0), ('d', 'DATE', 1), ('n', 'INTEGER', 0)]
    projections = [made.projection('alone', [(0, 'AUTO')], [0], 3, alone), made.projection('t_super', whole, [0], 3, [older, between, newer])]
    made.write('tests/added_column', 3, [made.table('t', columns, projections)])


version_one()
added_column()
