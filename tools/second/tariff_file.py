"""The reader and the writer of tariff files."""

from leb import Reader, encode, write_bytes
from marks import WIDEST, check_width
from records import (DENIES, GIVES, MOST_FARES, MOST_TERMS, FareLine, TermLine, check_records)
from refusal import FEW_RECORDS, FileFault, LineFault, NumberFault

FARE = 1
TERM = 2


def read_fare_line(reader, width):
    head = reader.number(0, width - 1)
    conditions = reader.marks(width)
    unless = reader.marks(width)
    return FareLine(head, conditions, unless)


def read_term_line(reader, width):
    kind = reader.number(GIVES, DENIES)
    head = reader.number(0, width - 1) if kind == GIVES else 0
    return TermLine(kind, head, reader.marks(width))


def read_section(reader, width, count, section, read_line):
    """The lines of one section; a fault within a line says which."""
    lines = []
    for index in range(count):
        try:
            lines.append(read_line(reader, width))
        except NumberFault as fault:
            raise LineFault(fault, section, index) from None
    return lines


def read_file(data, fare_room, term_room):
    """Width, fare lines and term lines of a file, with room for so many records."""
    reader = Reader(data)
    try:
        width = reader.number(1, WIDEST)
        fare_place = reader.place
        fare_count = reader.number(0, MOST_FARES)
        term_place = reader.place
        term_count = reader.number(0, MOST_TERMS)
        if fare_count > fare_room:
            raise NumberFault(FEW_RECORDS, fare_place)
        if term_count > term_room:
            raise NumberFault(FEW_RECORDS, term_place)
        fares = read_section(reader, width, fare_count, FARE, read_fare_line)
        terms = read_section(reader, width, term_count, TERM, read_term_line)
        reader.end()
    except (NumberFault, LineFault) as fault:
        raise FileFault(fault) from None
    return width, fares, terms


def list_bytes(marks):
    return encode(marks.count) + b"".join(encode(mark) for mark in marks.used())


def file_bytes(width, fares, terms):
    """The encoding of lawful lines."""
    written = encode(width) + encode(len(fares)) + encode(len(terms))
    for line in fares:
        written += encode(line.head) + list_bytes(line.conditions) + list_bytes(line.unless)
    for line in terms:
        written += encode(line.kind)
        if line.kind == GIVES:
            written += encode(line.head)
        written += list_bytes(line.conditions)
    return written


def write_file(width, fares, terms, out):
    """Write the file from byte 0 and answer its length."""
    check_width(width)
    check_records(fares, MOST_FARES, width)
    check_records(terms, MOST_TERMS, width)
    return write_bytes(out, 0, file_bytes(width, fares, terms))
