"""The host call: from the bytes of a tariff file and a facts string to a byte for each mark."""

import readings
from books import LineBook
from leb import read_facts
from marks import MarkSet
from records import MOST_FARES, MOST_TERMS
from refusal import OUTPUT_SHORT, Refused
from tariff_file import read_file

REFUSED = 100


def fare_settle(file, facts_string, out):
    """The verdict, or 100 and the number of the refusal; fills the output only if not refused."""
    try:
        width, fares, terms = read_file(file, MOST_FARES, MOST_TERMS)
        facts = MarkSet.empty(width)
        read_facts(facts_string, facts)
        if len(out) < width:
            raise Refused(OUTPUT_SHORT)
        book = LineBook(width)
        book.fill(terms)
        settled = readings.settle(facts, fares, book, 1)
    except Refused as refusal:
        return REFUSED + refusal.number
    for mark in range(width):
        out[mark] = readings.answer(mark, settled.t, settled.u)
    return settled.verdict
