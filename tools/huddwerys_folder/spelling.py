"""Numbers, texts and values as bytes. Each `x_at(data, at)` gives what stands there and the place behind it, or raises Malformed.

A value is None for NULL, a bool, an int, a date, or the bytes of a text.
"""
from datetime import date

LEAST, GREATEST = -(2**63) + 1, 2**63 - 1
MOST_OCTETS = 65_000
LAST_DAY = date.max.toordinal()  # the day of 9999-12-31, counted from 1 for 0001-01-01


class Malformed(Exception):
    """The bytes spell nothing of the kind, and why."""


def piece_at(data, at, size):
    if size > len(data) - at:
        raise Malformed('the bytes end too early')
    return data[at : at + size], at + size


def byte_at(data, at):
    if at >= len(data):
        raise Malformed('the bytes end too early')
    return data[at], at + 1


def vint_at(data, at):
    number, shift = 0, 0
    try:
        byte = data[at]
        while byte >= 128:
            number += (byte - 128) << shift
            shift += 7
            if shift > 63:
                raise Malformed('a number has more than ten bytes')
            at += 1
            byte = data[at]
    except IndexError:
        raise Malformed('the bytes end too early') from None
    if byte == 0 and shift:
        raise Malformed('a number has more groups than it needs')
    number += byte << shift
    if number >= 2**64:
        raise Malformed('a number is 2^64 or more')
    return number, at + 1


def vints_at(data, at, count):
    """So many numbers, one behind the other."""
    numbers = []
    for _ in range(count):
        if at < len(data) and data[at] < 128:
            numbers.append(data[at])
            at += 1
        else:
            number, at = vint_at(data, at)
            numbers.append(number)
    return numbers, at


def be8_at(data, at):
    piece, at = piece_at(data, at, 8)
    return int.from_bytes(piece, 'big', signed=True), at


def be4_at(data, at):
    piece, at = piece_at(data, at, 4)
    return int.from_bytes(piece, 'big'), at


def text_at(data, at):
    size, at = vint_at(data, at)
    return piece_at(data, at, size)


def number_at(data, at):
    number, at = be8_at(data, at)
    if number < LEAST:
        raise Malformed('a number is -2^63')
    return number, at


def day_of(number):
    if not 1 <= number <= LAST_DAY:
        raise Malformed(f'{number} is no day')
    return date.fromordinal(number)


def day_at(data, at):
    number, at = be4_at(data, at)
    return day_of(number), at


def value_text_at(data, at):
    size, at = be4_at(data, at)
    if size > MOST_OCTETS:
        raise Malformed(f'a text has more than {MOST_OCTETS:,} octets')
    text, at = piece_at(data, at, size)
    try:
        text.decode('utf-8')
    except UnicodeDecodeError:
        raise Malformed("a text isn't UTF-8") from None
    return text, at


def value_at(data, at):
    tag, at = byte_at(data, at)
    if tag == 0:
        return None, at
    if tag == 1:
        return number_at(data, at)
    if tag == 2:
        return value_text_at(data, at)
    if tag in (3, 4):
        return tag == 4, at
    if tag == 5:
        return day_at(data, at)
    raise Malformed(f'{tag:02x} is no tag of a value')


def rank(value):
    """Where a value stands in the order of values: NULL, false, true, numbers, dates, texts by their bytes."""
    if value is None:
        return (0,)
    if isinstance(value, bool):
        return (1, value)
    if isinstance(value, int):
        return (2, value)
    return (3, value) if isinstance(value, date) else (4, value)


def are_same(a, b):
    return type(a) is type(b) and a == b


class Front:
    """Bytes that are read part by part, from the front."""

    def __init__(self, data, at=0):
        self.data, self.at = data, at

    def next(self, read):
        part, self.at = read(self.data, self.at)
        return part

    def vint(self):
        return self.next(vint_at)

    def byte(self):
        return self.next(byte_at)

    def text(self):
        return self.next(text_at)

    def flag(self):
        byte = self.byte()
        if byte > 1:
            raise Malformed(f'{byte:02x} is neither 00 nor 01')
        return byte == 1

    def many(self, read):
        """How many, and each of them. A part takes a byte at least, so no more are read than there are bytes."""
        count = self.vint()
        if count > len(self.data) - self.at:
            raise Malformed('the bytes end too early')
        return [read(self) for _ in range(count)]

    def end(self):
        if self.at != len(self.data):
            raise Malformed(f'{len(self.data) - self.at} bytes are left behind it')
