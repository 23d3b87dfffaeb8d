"""Numbers and facts strings: reading with faults, and writing."""

from records import PLACES
from refusal import (BYTES_END, BYTES_REMAIN, MALFORMED, NOT_ASCENDING, OUTPUT_SHORT,
                     OUTSIDE_LIMIT, NumberFault, Refused)

HIGHEST = 65535
LONGEST_FACTS = 512


def decode(data, place):
    """Tests 1 and 2 at the place: the value and the place behind it."""
    parts = []
    while True:
        if place + len(parts) >= len(data):
            raise NumberFault(BYTES_END, place)
        byte = data[place + len(parts)]
        parts.append(byte)
        if byte < 0x80:
            break
        if len(parts) == 3:
            raise NumberFault(MALFORMED, place)
    if len(parts) > 1 and parts[-1] == 0:
        raise NumberFault(MALFORMED, place)
    value = sum((byte & 0x7F) << (7 * index) for index, byte in enumerate(parts))
    if value > HIGHEST:
        raise NumberFault(MALFORMED, place)
    return value, place + len(parts)


def encode(value):
    """The only form of a number."""
    parts = []
    while value >= 128:
        parts.append(128 + value % 128)
        value //= 128
    parts.append(value)
    return bytes(parts)


class Reader:
    """Stands over the caller's bytes at a place."""

    def __init__(self, data, place=0):
        self.data = data
        self.place = place

    def number(self, low, high, after=None):
        """Tests 1 to 3 and, where there is a mark before it, test 4; on a fault the place stays."""
        value, behind = decode(self.data, self.place)
        if not low <= value <= high:
            raise NumberFault(OUTSIDE_LIMIT, self.place)
        if after is not None and value <= after:
            raise NumberFault(NOT_ASCENDING, self.place)
        self.place = behind
        return value

    def marks(self, width, most=PLACES):
        """A list: a count, then that many ascending marks."""
        marks = []
        for _ in range(self.number(0, most)):
            marks.append(self.number(0, width - 1, marks[-1] if marks else None))
        return marks

    def end(self):
        """Test 6: nothing may be left."""
        if self.place < len(self.data):
            raise NumberFault(BYTES_REMAIN, self.place)


def write_bytes(out, place, written):
    """Put the bytes at the place and answer the place behind them; 13 if they do not fit."""
    if place + len(written) > len(out):
        raise Refused(OUTPUT_SHORT)
    out[place:place + len(written)] = written
    return place + len(written)


def write_number(out, place, value):
    return write_bytes(out, place, encode(value))


def read_facts(data, into):
    """Read a facts string into the set; on a fault the set stays."""
    reader = Reader(data)
    marks = reader.marks(into.width, LONGEST_FACTS)
    reader.end()
    into.marks = set(marks)


def write_facts(given, out):
    """Write the set as a facts string and answer its length."""
    written = encode(given.count())
    for mark in sorted(given.marks):
        written += encode(mark)
    return write_bytes(out, 0, written)
